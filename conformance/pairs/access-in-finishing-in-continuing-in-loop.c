// A refused access, in a section with a __finally block, in a section whose filter mends and
// continues, in a loop.
int mending(unsigned code) {
  put(code % 256);
  protect((void *)0x20000000, 2);
  return code == 0xC0000025 || code == 0xC0000094 ? 1 : -1;
}
void part0(void) {
  int n0;
  for (n0 = 0; n0 < 2; n0++) {
    __try {
      __try {
        put(1);
        *(int *)0x20000000 = 1;
        put(2);
      } __finally {
        put(3 + AbnormalTermination());
      }
      put(5);
    } __except (mending(GetExceptionCode())) {
      put(6);
    }
    put(7);
  }
}
int main(void) {
  __try {
    part0();
    put(8);
  } __except (1) {
    put(GetExceptionCode() % 256);
  }
  put(9);
  return 0;
}
