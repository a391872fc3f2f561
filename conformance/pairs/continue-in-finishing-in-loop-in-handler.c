// A continue, in a section with a __finally block, in a loop, in a routine of a __finally block.
void fail(int n) { RaiseException(0xE0000000 + n, 0, 0, 0); }
void part1(void) {
  int n1;
  for (n1 = 0; n1 < 2; n1++) {
    __try {
      put(1);
      continue;
    } __finally {
      put(2 + AbnormalTermination());
    }
    put(4);
    put(5);
  }
}
void part0(void) {
  __try {
    fail(5);
  } __finally {
    part1();
    put(6);
  }
}
int main(void) {
  __try {
    part0();
    put(7);
  } __except (1) {
    put(GetExceptionCode() % 256);
  }
  put(8);
  return 0;
}
