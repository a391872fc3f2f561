// A refused access, in a routine, in an __except block, in a routine of a filter.
void fail(int n) { RaiseException(0xE0000000 + n, 0, 0, 0); }
int begun0;
void part2(void) {
  put(2);
  *(int *)0x20000000 = 1;
  put(3);
}
int part1(void) {
  begun0 = begun0 + 1;
  if (begun0 > 1) return 1;
  __try {
    fail(4);
  } __except (1) {
    put(1);
    part2();
    put(4);
  }
  return 1;
}
void part0(void) {
  __try {
    fail(6);
  } __except (part1()) {
    put(5);
  }
}
int main(void) {
  __try {
    part0();
    put(6);
  } __except (1) {
    put(GetExceptionCode() % 256);
  }
  put(7);
  return 0;
}
