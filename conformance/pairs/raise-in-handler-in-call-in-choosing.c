// An exception, in a routine of a __finally block, in a routine, in a section whose filter takes
// one code.
void fail(int n) { RaiseException(0xE0000000 + n, 0, 0, 0); }
void part2(void) {
  put(1);
  fail(1);
  put(2);
}
void part1(void) {
  __try {
    fail(5);
  } __finally {
    part2();
    put(3);
  }
}
void part0(void) {
  __try {
    part1();
    put(4);
  } __except (GetExceptionCode() == 0xE0000003) {
    put(5);
  }
  put(6);
}
int main(void) {
  __try {
    part0();
    put(7);
  } __except (1) {
    put(GetExceptionCode() % 256);
  }
  put(8);
  return 0;
}
