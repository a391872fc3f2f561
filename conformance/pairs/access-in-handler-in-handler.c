// A refused access, in a routine of a __finally block, in a routine of a __finally block.
void fail(int n) { RaiseException(0xE0000000 + n, 0, 0, 0); }
void part2(void) {
  put(1);
  *(int *)0x20000000 = 1;
  put(2);
}
void part1(void) {
  __try {
    fail(5);
  } __finally {
    part2();
    put(3);
  }
}
void part0(void) {
  __try {
    fail(5);
  } __finally {
    part1();
    put(4);
  }
}
int main(void) {
  __try {
    part0();
    put(5);
  } __except (1) {
    put(GetExceptionCode() % 256);
  }
  put(6);
  return 0;
}
