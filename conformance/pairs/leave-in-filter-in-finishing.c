// A __leave, in a routine of a filter, in a section with a __finally block.
void fail(int n) { RaiseException(0xE0000000 + n, 0, 0, 0); }
int begun1;
int part1(void) {
  begun1 = begun1 + 1;
  if (begun1 > 1) return 1;
  __try {
    put(1);
    __leave;
  } __finally {
    put(2);
  }
  return 1;
}
void part0(void) {
  __try {
    __try {
      fail(6);
    } __except (part1()) {
      put(3);
    }
  } __finally {
    put(4 + AbnormalTermination());
  }
  put(6);
}
int main(void) {
  __try {
    part0();
    put(7);
  } __except (1) {
    put(GetExceptionCode() % 256);
  }
  put(8);
  return 0;
}
