// A continue, in a routine of a __finally block, in a section with a __finally block, in a
// section with a __finally block.
void fail(int n) { RaiseException(0xE0000000 + n, 0, 0, 0); }
void part1(void) {
  int i;
  for (i = 0; i < 2; i++) {
    put(1);
    continue;
    put(2);
  }
}
void part0(void) {
  __try {
    __try {
      __try {
        fail(5);
      } __finally {
        part1();
        put(3);
      }
    } __finally {
      put(4 + AbnormalTermination());
    }
    put(6);
  } __finally {
    put(7 + AbnormalTermination());
  }
  put(9);
}
int main(void) {
  __try {
    part0();
    put(10);
  } __except (1) {
    put(GetExceptionCode() % 256);
  }
  put(11);
  return 0;
}
