// A return, in a routine, in a section with a __finally block, in a section whose filter mends
// and continues.
int mending(unsigned code) {
  put(code % 256);
  protect((void *)0x20000000, 2);
  return code == 0xC0000025 || code == 0xC0000094 ? 1 : -1;
}
void part1(void) {
  put(1);
  return;
}
void part0(void) {
  __try {
    __try {
      part1();
      put(2);
    } __finally {
      put(3 + AbnormalTermination());
    }
    put(5);
  } __except (mending(GetExceptionCode())) {
    put(6);
  }
}
int main(void) {
  __try {
    part0();
    put(7);
  } __except (1) {
    put(GetExceptionCode() % 256);
  }
  put(8);
  return 0;
}
