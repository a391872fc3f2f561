// A return, in a routine, in a routine of a filter, in an __except block.
void fail(int n) { RaiseException(0xE0000000 + n, 0, 0, 0); }
int begun1;
void part2(void) {
  put(2);
  return;
}
int part1(void) {
  begun1 = begun1 + 1;
  if (begun1 > 1) return 1;
  part2();
  put(3);
  return 1;
}
void part0(void) {
  __try {
    fail(4);
  } __except (1) {
    put(1);
    __try {
      fail(6);
    } __except (part1()) {
      put(4);
    }
  }
}
int main(void) {
  __try {
    part0();
    put(5);
  } __except (1) {
    put(GetExceptionCode() % 256);
  }
  put(6);
  return 0;
}
