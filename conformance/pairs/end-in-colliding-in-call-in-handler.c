// A normal end, in a section whose __finally block raises, in a routine, in a routine of a
// __finally block.
void fail(int n) { RaiseException(0xE0000000 + n, 0, 0, 0); }
void part2(void) {
  __try {
    put(1);
  } __finally {
    put(2);
    if (AbnormalTermination()) fail(3);
  }
  put(3);
}
void part1(void) {
  part2();
  put(4);
}
void part0(void) {
  __try {
    fail(5);
  } __finally {
    part1();
    put(5);
  }
}
int main(void) {
  __try {
    part0();
    put(6);
  } __except (1) {
    put(GetExceptionCode() % 256);
  }
  put(7);
  return 0;
}
