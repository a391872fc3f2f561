// A division by zero, in a section whose filter raises once, in a section with a __finally block,
// in a routine of a filter.
int asked;
void fail(int n) { RaiseException(0xE0000000 + n, 0, 0, 0); }
int zero;
int raising(void) {
  asked = asked + 1;
  if (asked == 1) fail(2);
  return 0;
}
int begun0;
int part1(void) {
  begun0 = begun0 + 1;
  if (begun0 > 1) return 1;
  __try {
    __try {
      put(1);
      put(7 / zero);
      put(2);
    } __except (raising()) {
      put(3);
    }
  } __finally {
    put(4 + AbnormalTermination());
  }
  put(6);
  return 1;
}
void part0(void) {
  __try {
    fail(6);
  } __except (part1()) {
    put(7);
  }
}
int main(void) {
  __try {
    part0();
    put(8);
  } __except (1) {
    put(GetExceptionCode() % 256);
  }
  put(9);
  return 0;
}
