// An exception, in a section with a __finally block, in a routine of a __finally block, in a
// loop.
void fail(int n) { RaiseException(0xE0000000 + n, 0, 0, 0); }
void part1(void) {
  __try {
    put(1);
    fail(1);
    put(2);
  } __finally {
    put(3 + AbnormalTermination());
  }
  put(5);
}
void part0(void) {
  int n0;
  for (n0 = 0; n0 < 2; n0++) {
    __try {
      fail(5);
    } __finally {
      part1();
      put(6);
    }
    put(7);
  }
}
int main(void) {
  __try {
    part0();
    put(8);
  } __except (1) {
    put(GetExceptionCode() % 256);
  }
  put(9);
  return 0;
}
