// A break, in a section with a __finally block, in a section whose __finally block raises, in a
// routine of a filter.
void fail(int n) { RaiseException(0xE0000000 + n, 0, 0, 0); }
int begun0;
int part1(void) {
  begun0 = begun0 + 1;
  if (begun0 > 1) return 1;
  int i;
  for (i = 0; i < 2; i++) {
    __try {
      __try {
        put(1);
        break;
      } __finally {
        put(2 + AbnormalTermination());
      }
      put(4);
    } __finally {
      put(5);
      if (AbnormalTermination()) fail(3);
    }
    put(6);
    put(7);
  }
  return 1;
}
void part0(void) {
  __try {
    fail(6);
  } __except (part1()) {
    put(8);
  }
}
int main(void) {
  __try {
    part0();
    put(9);
  } __except (1) {
    put(GetExceptionCode() % 256);
  }
  put(10);
  return 0;
}
