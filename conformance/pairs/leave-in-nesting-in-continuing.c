// A __leave, in a section whose filter raises once, in a section whose filter mends and
// continues.
int asked;
void fail(int n) { RaiseException(0xE0000000 + n, 0, 0, 0); }
int raising(void) {
  asked = asked + 1;
  if (asked == 1) fail(2);
  return 0;
}
int mending(unsigned code) {
  put(code % 256);
  protect((void *)0x20000000, 2);
  return code == 0xC0000025 || code == 0xC0000094 ? 1 : -1;
}
void part0(void) {
  __try {
    __try {
      put(1);
      __leave;
    } __except (raising()) {
      put(2);
    }
  } __except (mending(GetExceptionCode())) {
    put(3);
  }
}
int main(void) {
  __try {
    part0();
    put(4);
  } __except (1) {
    put(GetExceptionCode() % 256);
  }
  put(5);
  return 0;
}
