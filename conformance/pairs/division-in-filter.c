// A division by zero, in a routine of a filter.
void fail(int n) { RaiseException(0xE0000000 + n, 0, 0, 0); }
int zero;
int begun0;
int part1(void) {
  begun0 = begun0 + 1;
  if (begun0 > 1) return 1;
  put(1);
  put(7 / zero);
  put(2);
  return 1;
}
void part0(void) {
  __try {
    fail(6);
  } __except (part1()) {
    put(3);
  }
}
int main(void) {
  __try {
    part0();
    put(4);
  } __except (1) {
    put(GetExceptionCode() % 256);
  }
  put(5);
  return 0;
}
