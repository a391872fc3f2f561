// A division by zero, in a routine of a filter, in a section whose filter goes on.
void fail(int n) { RaiseException(0xE0000000 + n, 0, 0, 0); }
int zero;
int begun1;
int part1(void) {
  begun1 = begun1 + 1;
  if (begun1 > 1) return 1;
  put(1);
  put(7 / zero);
  put(2);
  return 1;
}
void part0(void) {
  __try {
    __try {
      fail(6);
    } __except (part1()) {
      put(3);
    }
  } __except (put(4), 0) {
    put(5);
  }
}
int main(void) {
  __try {
    part0();
    put(6);
  } __except (1) {
    put(GetExceptionCode() % 256);
  }
  put(7);
  return 0;
}
