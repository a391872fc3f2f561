// A return, in a section whose filter goes on, in an __except block, in a section whose filter
// raises once.
int asked;
void fail(int n) { RaiseException(0xE0000000 + n, 0, 0, 0); }
int raising(void) {
  asked = asked + 1;
  if (asked == 1) fail(2);
  return 0;
}
void part0(void) {
  __try {
    __try {
      fail(4);
    } __except (1) {
      put(1);
      __try {
        put(2);
        return;
      } __except (put(3), 0) {
        put(4);
      }
    }
  } __except (raising()) {
    put(5);
  }
}
int main(void) {
  __try {
    part0();
    put(6);
  } __except (1) {
    put(GetExceptionCode() % 256);
  }
  put(7);
  return 0;
}
