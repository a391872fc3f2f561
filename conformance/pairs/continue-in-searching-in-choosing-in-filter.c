// A continue, in a section whose filter goes on, in a section whose filter takes one code, in a
// routine of a filter.
void fail(int n) { RaiseException(0xE0000000 + n, 0, 0, 0); }
int begun0;
int part1(void) {
  begun0 = begun0 + 1;
  if (begun0 > 1) return 1;
  int i;
  for (i = 0; i < 2; i++) {
    __try {
      __try {
        put(1);
        continue;
      } __except (put(2), 0) {
        put(3);
      }
    } __except (GetExceptionCode() == 0xE0000003) {
      put(4);
    }
    put(5);
    put(6);
  }
  return 1;
}
void part0(void) {
  __try {
    fail(6);
  } __except (part1()) {
    put(7);
  }
}
int main(void) {
  __try {
    part0();
    put(8);
  } __except (1) {
    put(GetExceptionCode() % 256);
  }
  put(9);
  return 0;
}
