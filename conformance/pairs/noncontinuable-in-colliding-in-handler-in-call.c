// A noncontinuable exception, in a section whose __finally block raises, in a routine of a
// __finally block, in a routine.
void fail(int n) { RaiseException(0xE0000000 + n, 0, 0, 0); }
void part2(void) {
  __try {
    put(1);
    RaiseException(0xE0000001, 1, 0, 0);
    put(2);
  } __finally {
    put(3);
    if (AbnormalTermination()) fail(3);
  }
  put(4);
}
void part1(void) {
  __try {
    fail(5);
  } __finally {
    part2();
    put(5);
  }
}
void part0(void) {
  part1();
  put(6);
}
int main(void) {
  __try {
    part0();
    put(7);
  } __except (1) {
    put(GetExceptionCode() % 256);
  }
  put(8);
  return 0;
}
