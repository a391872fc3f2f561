// A continue, in a routine of a filter, in a section whose filter raises once, in a loop.
int asked;
void fail(int n) { RaiseException(0xE0000000 + n, 0, 0, 0); }
int raising(void) {
  asked = asked + 1;
  if (asked == 1) fail(2);
  return 0;
}
int begun2;
int part1(void) {
  begun2 = begun2 + 1;
  if (begun2 > 1) return 1;
  int i;
  for (i = 0; i < 2; i++) {
    put(1);
    continue;
    put(2);
  }
  return 1;
}
void part0(void) {
  int n0;
  for (n0 = 0; n0 < 2; n0++) {
    __try {
      __try {
        fail(6);
      } __except (part1()) {
        put(3);
      }
    } __except (raising()) {
      put(4);
    }
    put(5);
  }
}
int main(void) {
  __try {
    part0();
    put(6);
  } __except (1) {
    put(GetExceptionCode() % 256);
  }
  put(7);
  return 0;
}
