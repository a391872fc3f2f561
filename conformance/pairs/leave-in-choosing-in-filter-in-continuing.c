// A __leave, in a section whose filter takes one code, in a routine of a filter, in a section
// whose filter mends and continues.
void fail(int n) { RaiseException(0xE0000000 + n, 0, 0, 0); }
int mending(unsigned code) {
  put(code % 256);
  protect((void *)0x20000000, 2);
  return code == 0xC0000025 || code == 0xC0000094 ? 1 : -1;
}
int begun1;
int part1(void) {
  begun1 = begun1 + 1;
  if (begun1 > 1) return 1;
  __try {
    put(1);
    __leave;
  } __except (GetExceptionCode() == 0xE0000003) {
    put(2);
  }
  put(3);
  return 1;
}
void part0(void) {
  __try {
    __try {
      fail(6);
    } __except (part1()) {
      put(4);
    }
  } __except (mending(GetExceptionCode())) {
    put(5);
  }
}
int main(void) {
  __try {
    part0();
    put(6);
  } __except (1) {
    put(GetExceptionCode() % 256);
  }
  put(7);
  return 0;
}
