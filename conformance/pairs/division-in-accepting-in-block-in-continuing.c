// A division by zero, in a section whose filter accepts, in an __except block, in a section whose
// filter mends and continues.
void fail(int n) { RaiseException(0xE0000000 + n, 0, 0, 0); }
int zero;
int mending(unsigned code) {
  put(code % 256);
  protect((void *)0x20000000, 2);
  return code == 0xC0000025 || code == 0xC0000094 ? 1 : -1;
}
void part0(void) {
  __try {
    __try {
      fail(4);
    } __except (1) {
      put(1);
      __try {
        put(2);
        put(7 / zero);
        put(3);
      } __except (put(4), 1) {
        put(5);
      }
    }
  } __except (mending(GetExceptionCode())) {
    put(6);
  }
}
int main(void) {
  __try {
    part0();
    put(7);
  } __except (1) {
    put(GetExceptionCode() % 256);
  }
  put(8);
  return 0;
}
