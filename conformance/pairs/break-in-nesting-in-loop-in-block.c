// A break, in a section whose filter raises once, in a loop, in an __except block.
int asked;
void fail(int n) { RaiseException(0xE0000000 + n, 0, 0, 0); }
int raising(void) {
  asked = asked + 1;
  if (asked == 1) fail(2);
  return 0;
}
void part0(void) {
  __try {
    fail(4);
  } __except (1) {
    put(1);
    int n1;
    for (n1 = 0; n1 < 2; n1++) {
      __try {
        put(2);
        break;
      } __except (raising()) {
        put(3);
      }
      put(4);
    }
  }
}
int main(void) {
  __try {
    part0();
    put(5);
  } __except (1) {
    put(GetExceptionCode() % 256);
  }
  put(6);
  return 0;
}
