// A __leave, in a section whose __finally block raises, in a routine of a __finally block.
void fail(int n) { RaiseException(0xE0000000 + n, 0, 0, 0); }
void part1(void) {
  __try {
    put(1);
    __leave;
  } __finally {
    put(2);
    if (AbnormalTermination()) fail(3);
  }
  put(3);
}
void part0(void) {
  __try {
    fail(5);
  } __finally {
    part1();
    put(4);
  }
}
int main(void) {
  __try {
    part0();
    put(5);
  } __except (1) {
    put(GetExceptionCode() % 256);
  }
  put(6);
  return 0;
}
