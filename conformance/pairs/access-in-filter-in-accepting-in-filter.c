// A refused access, in a routine of a filter, in a section whose filter accepts, in a routine of
// a filter.
void fail(int n) { RaiseException(0xE0000000 + n, 0, 0, 0); }
int begun0;
int begun2;
int part2(void) {
  begun2 = begun2 + 1;
  if (begun2 > 1) return 1;
  put(1);
  *(int *)0x20000000 = 1;
  put(2);
  return 1;
}
int part1(void) {
  begun0 = begun0 + 1;
  if (begun0 > 1) return 1;
  __try {
    __try {
      fail(6);
    } __except (part2()) {
      put(3);
    }
  } __except (put(4), 1) {
    put(5);
  }
  return 1;
}
void part0(void) {
  __try {
    fail(6);
  } __except (part1()) {
    put(6);
  }
}
int main(void) {
  __try {
    part0();
    put(7);
  } __except (1) {
    put(GetExceptionCode() % 256);
  }
  put(8);
  return 0;
}
