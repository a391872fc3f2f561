// A continue, in a routine of a filter, in a section whose filter raises once.
int asked;
void fail(int n) { RaiseException(0xE0000000 + n, 0, 0, 0); }
int raising(void) {
  asked = asked + 1;
  if (asked == 1) fail(2);
  return 0;
}
int begun1;
int part1(void) {
  begun1 = begun1 + 1;
  if (begun1 > 1) return 1;
  int i;
  for (i = 0; i < 2; i++) {
    put(1);
    continue;
    put(2);
  }
  return 1;
}
void part0(void) {
  __try {
    __try {
      fail(6);
    } __except (part1()) {
      put(3);
    }
  } __except (raising()) {
    put(4);
  }
}
int main(void) {
  __try {
    part0();
    put(5);
  } __except (1) {
    put(GetExceptionCode() % 256);
  }
  put(6);
  return 0;
}
