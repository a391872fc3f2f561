// A normal end, in a section with a __finally block, in a section whose filter mends and
// continues, in a section whose filter takes one code.
int mending(unsigned code) {
  put(code % 256);
  protect((void *)0x20000000, 2);
  return code == 0xC0000025 || code == 0xC0000094 ? 1 : -1;
}
void part0(void) {
  __try {
    __try {
      __try {
        put(1);
      } __finally {
        put(2 + AbnormalTermination());
      }
      put(4);
    } __except (mending(GetExceptionCode())) {
      put(5);
    }
  } __except (GetExceptionCode() == 0xE0000003) {
    put(6);
  }
  put(7);
}
int main(void) {
  __try {
    part0();
    put(8);
  } __except (1) {
    put(GetExceptionCode() % 256);
  }
  put(9);
  return 0;
}
