// A __leave, in a section with a __finally block, in a routine, in an __except block.
void fail(int n) { RaiseException(0xE0000000 + n, 0, 0, 0); }
void part1(void) {
  __try {
    put(2);
    __leave;
  } __finally {
    put(3 + AbnormalTermination());
  }
  put(5);
}
void part0(void) {
  __try {
    fail(4);
  } __except (1) {
    put(1);
    part1();
    put(6);
  }
}
int main(void) {
  __try {
    part0();
    put(7);
  } __except (1) {
    put(GetExceptionCode() % 256);
  }
  put(8);
  return 0;
}
