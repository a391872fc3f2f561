// A noncontinuable exception, in a routine of a __finally block, in a section whose filter
// accepts, in a routine of a __finally block.
void fail(int n) { RaiseException(0xE0000000 + n, 0, 0, 0); }
void part2(void) {
  put(1);
  RaiseException(0xE0000001, 1, 0, 0);
  put(2);
}
void part1(void) {
  __try {
    __try {
      fail(5);
    } __finally {
      part2();
      put(3);
    }
  } __except (put(4), 1) {
    put(5);
  }
}
void part0(void) {
  __try {
    fail(5);
  } __finally {
    part1();
    put(6);
  }
}
int main(void) {
  __try {
    part0();
    put(7);
  } __except (1) {
    put(GetExceptionCode() % 256);
  }
  put(8);
  return 0;
}
