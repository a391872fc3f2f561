// A division by zero, in a loop, in a routine of a filter, in a routine.
void fail(int n) { RaiseException(0xE0000000 + n, 0, 0, 0); }
int zero;
int begun1;
int part2(void) {
  begun1 = begun1 + 1;
  if (begun1 > 1) return 1;
  int n2;
  for (n2 = 0; n2 < 2; n2++) {
    put(1);
    put(7 / zero);
    put(2);
    put(3);
  }
  return 1;
}
void part1(void) {
  __try {
    fail(6);
  } __except (part2()) {
    put(4);
  }
}
void part0(void) {
  part1();
  put(5);
}
int main(void) {
  __try {
    part0();
    put(6);
  } __except (1) {
    put(GetExceptionCode() % 256);
  }
  put(7);
  return 0;
}
