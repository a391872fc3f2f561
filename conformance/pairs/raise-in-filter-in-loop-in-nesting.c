// An exception, in a routine of a filter, in a loop, in a section whose filter raises once.
int asked;
void fail(int n) { RaiseException(0xE0000000 + n, 0, 0, 0); }
int raising(void) {
  asked = asked + 1;
  if (asked == 1) fail(2);
  return 0;
}
int begun2;
int part1(void) {
  begun2 = begun2 + 1;
  if (begun2 > 1) return 1;
  put(1);
  fail(1);
  put(2);
  return 1;
}
void part0(void) {
  __try {
    int n1;
    for (n1 = 0; n1 < 2; n1++) {
      __try {
        fail(6);
      } __except (part1()) {
        put(3);
      }
      put(4);
    }
  } __except (raising()) {
    put(5);
  }
}
int main(void) {
  __try {
    part0();
    put(6);
  } __except (1) {
    put(GetExceptionCode() % 256);
  }
  put(7);
  return 0;
}
