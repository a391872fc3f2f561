// An exception, in a routine of a filter, in a loop.
void fail(int n) { RaiseException(0xE0000000 + n, 0, 0, 0); }
int begun1;
int part1(void) {
  begun1 = begun1 + 1;
  if (begun1 > 1) return 1;
  put(1);
  fail(1);
  put(2);
  return 1;
}
void part0(void) {
  int n0;
  for (n0 = 0; n0 < 2; n0++) {
    __try {
      fail(6);
    } __except (part1()) {
      put(3);
    }
    put(4);
  }
}
int main(void) {
  __try {
    part0();
    put(5);
  } __except (1) {
    put(GetExceptionCode() % 256);
  }
  put(6);
  return 0;
}
