// A refused access, in a loop, in a section whose filter raises once, in a section whose filter
// mends and continues.
int asked;
void fail(int n) { RaiseException(0xE0000000 + n, 0, 0, 0); }
int raising(void) {
  asked = asked + 1;
  if (asked == 1) fail(2);
  return 0;
}
int mending(unsigned code) {
  put(code % 256);
  protect((void *)0x20000000, 2);
  return code == 0xC0000025 || code == 0xC0000094 ? 1 : -1;
}
void part0(void) {
  __try {
    __try {
      int n2;
      for (n2 = 0; n2 < 2; n2++) {
        put(1);
        *(int *)0x20000000 = 1;
        put(2);
        put(3);
      }
    } __except (raising()) {
      put(4);
    }
  } __except (mending(GetExceptionCode())) {
    put(5);
  }
}
int main(void) {
  __try {
    part0();
    put(6);
  } __except (1) {
    put(GetExceptionCode() % 256);
  }
  put(7);
  return 0;
}
