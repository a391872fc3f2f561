// A __leave, in a section whose filter mends and continues, in a routine of a __finally block, in
// a section with a __finally block.
void fail(int n) { RaiseException(0xE0000000 + n, 0, 0, 0); }
int mending(unsigned code) {
  put(code % 256);
  protect((void *)0x20000000, 2);
  return code == 0xC0000025 || code == 0xC0000094 ? 1 : -1;
}
void part1(void) {
  __try {
    put(1);
    __leave;
  } __except (mending(GetExceptionCode())) {
    put(2);
  }
}
void part0(void) {
  __try {
    __try {
      fail(5);
    } __finally {
      part1();
      put(3);
    }
  } __finally {
    put(4 + AbnormalTermination());
  }
  put(6);
}
int main(void) {
  __try {
    part0();
    put(7);
  } __except (1) {
    put(GetExceptionCode() % 256);
  }
  put(8);
  return 0;
}
