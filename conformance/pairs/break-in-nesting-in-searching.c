// A break, in a section whose filter raises once, in a section whose filter goes on.
int asked;
void fail(int n) { RaiseException(0xE0000000 + n, 0, 0, 0); }
int raising(void) {
  asked = asked + 1;
  if (asked == 1) fail(2);
  return 0;
}
void part0(void) {
  int i;
  for (i = 0; i < 2; i++) {
    __try {
      __try {
        put(1);
        break;
      } __except (raising()) {
        put(2);
      }
    } __except (put(3), 0) {
      put(4);
    }
    put(5);
  }
}
int main(void) {
  __try {
    part0();
    put(6);
  } __except (1) {
    put(GetExceptionCode() % 256);
  }
  put(7);
  return 0;
}
