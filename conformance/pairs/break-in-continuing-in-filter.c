// A break, in a section whose filter mends and continues, in a routine of a filter.
void fail(int n) { RaiseException(0xE0000000 + n, 0, 0, 0); }
int mending(unsigned code) {
  put(code % 256);
  protect((void *)0x20000000, 2);
  return code == 0xC0000025 || code == 0xC0000094 ? 1 : -1;
}
int begun0;
int part1(void) {
  begun0 = begun0 + 1;
  if (begun0 > 1) return 1;
  int i;
  for (i = 0; i < 2; i++) {
    __try {
      put(1);
      break;
    } __except (mending(GetExceptionCode())) {
      put(2);
    }
    put(3);
  }
  return 1;
}
void part0(void) {
  __try {
    fail(6);
  } __except (part1()) {
    put(4);
  }
}
int main(void) {
  __try {
    part0();
    put(5);
  } __except (1) {
    put(GetExceptionCode() % 256);
  }
  put(6);
  return 0;
}
