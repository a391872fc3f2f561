// A noncontinuable exception, in a routine of a filter, in a routine, in a section whose filter
// mends and continues.
void fail(int n) { RaiseException(0xE0000000 + n, 0, 0, 0); }
int mending(unsigned code) {
  put(code % 256);
  protect((void *)0x20000000, 2);
  return code == 0xC0000025 || code == 0xC0000094 ? 1 : -1;
}
int begun2;
int part2(void) {
  begun2 = begun2 + 1;
  if (begun2 > 1) return 1;
  put(1);
  RaiseException(0xE0000001, 1, 0, 0);
  put(2);
  return 1;
}
void part1(void) {
  __try {
    fail(6);
  } __except (part2()) {
    put(3);
  }
}
void part0(void) {
  __try {
    part1();
    put(4);
  } __except (mending(GetExceptionCode())) {
    put(5);
  }
}
int main(void) {
  __try {
    part0();
    put(6);
  } __except (1) {
    put(GetExceptionCode() % 256);
  }
  put(7);
  return 0;
}
