// An exception, in a section whose filter goes on, in a section with a __finally block, in a
// routine.
void fail(int n) { RaiseException(0xE0000000 + n, 0, 0, 0); }
void part1(void) {
  __try {
    __try {
      put(1);
      fail(1);
      put(2);
    } __except (put(3), 0) {
      put(4);
    }
  } __finally {
    put(5 + AbnormalTermination());
  }
  put(7);
}
void part0(void) {
  part1();
  put(8);
}
int main(void) {
  __try {
    part0();
    put(9);
  } __except (1) {
    put(GetExceptionCode() % 256);
  }
  put(10);
  return 0;
}
