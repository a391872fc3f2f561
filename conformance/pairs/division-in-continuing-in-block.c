// A division by zero, in a section whose filter mends and continues, in an __except block.
void fail(int n) { RaiseException(0xE0000000 + n, 0, 0, 0); }
int zero;
int mending(unsigned code) {
  put(code % 256);
  protect((void *)0x20000000, 2);
  return code == 0xC0000025 || code == 0xC0000094 ? 1 : -1;
}
void part0(void) {
  __try {
    fail(4);
  } __except (1) {
    put(1);
    __try {
      put(2);
      put(7 / zero);
      put(3);
    } __except (mending(GetExceptionCode())) {
      put(4);
    }
  }
}
int main(void) {
  __try {
    part0();
    put(5);
  } __except (1) {
    put(GetExceptionCode() % 256);
  }
  put(6);
  return 0;
}
