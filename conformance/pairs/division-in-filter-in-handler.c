// A division by zero, in a routine of a filter, in a routine of a __finally block.
void fail(int n) { RaiseException(0xE0000000 + n, 0, 0, 0); }
int zero;
int begun1;
int part2(void) {
  begun1 = begun1 + 1;
  if (begun1 > 1) return 1;
  put(1);
  put(7 / zero);
  put(2);
  return 1;
}
void part1(void) {
  __try {
    fail(6);
  } __except (part2()) {
    put(3);
  }
}
void part0(void) {
  __try {
    fail(5);
  } __finally {
    part1();
    put(4);
  }
}
int main(void) {
  __try {
    part0();
    put(5);
  } __except (1) {
    put(GetExceptionCode() % 256);
  }
  put(6);
  return 0;
}
