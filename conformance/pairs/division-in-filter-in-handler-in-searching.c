// A division by zero, in a routine of a filter, in a routine of a __finally block, in a section
// whose filter goes on.
void fail(int n) { RaiseException(0xE0000000 + n, 0, 0, 0); }
int zero;
int begun2;
int part2(void) {
  begun2 = begun2 + 1;
  if (begun2 > 1) return 1;
  put(1);
  put(7 / zero);
  put(2);
  return 1;
}
void part1(void) {
  __try {
    fail(6);
  } __except (part2()) {
    put(3);
  }
}
void part0(void) {
  __try {
    __try {
      fail(5);
    } __finally {
      part1();
      put(4);
    }
  } __except (put(5), 0) {
    put(6);
  }
}
int main(void) {
  __try {
    part0();
    put(7);
  } __except (1) {
    put(GetExceptionCode() % 256);
  }
  put(8);
  return 0;
}
