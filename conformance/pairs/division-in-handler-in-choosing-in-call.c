// A division by zero, in a routine of a __finally block, in a section whose filter takes one
// code, in a routine.
void fail(int n) { RaiseException(0xE0000000 + n, 0, 0, 0); }
int zero;
void part2(void) {
  put(1);
  put(7 / zero);
  put(2);
}
void part1(void) {
  __try {
    __try {
      fail(5);
    } __finally {
      part2();
      put(3);
    }
  } __except (GetExceptionCode() == 0xE0000003) {
    put(4);
  }
  put(5);
}
void part0(void) {
  part1();
  put(6);
}
int main(void) {
  __try {
    part0();
    put(7);
  } __except (1) {
    put(GetExceptionCode() % 256);
  }
  put(8);
  return 0;
}
