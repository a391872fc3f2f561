// A return, in a section whose filter raises once, in an __except block.
int asked;
void fail(int n) { RaiseException(0xE0000000 + n, 0, 0, 0); }
int raising(void) {
  asked = asked + 1;
  if (asked == 1) fail(2);
  return 0;
}
void part0(void) {
  __try {
    fail(4);
  } __except (1) {
    put(1);
    __try {
      put(2);
      return;
    } __except (raising()) {
      put(3);
    }
  }
}
int main(void) {
  __try {
    part0();
    put(4);
  } __except (1) {
    put(GetExceptionCode() % 256);
  }
  put(5);
  return 0;
}
