// A refused access, in a routine of a filter, in an __except block, in a section whose filter
// takes one code.
void fail(int n) { RaiseException(0xE0000000 + n, 0, 0, 0); }
int begun2;
int part1(void) {
  begun2 = begun2 + 1;
  if (begun2 > 1) return 1;
  put(2);
  *(int *)0x20000000 = 1;
  put(3);
  return 1;
}
void part0(void) {
  __try {
    __try {
      fail(4);
    } __except (1) {
      put(1);
      __try {
        fail(6);
      } __except (part1()) {
        put(4);
      }
    }
  } __except (GetExceptionCode() == 0xE0000003) {
    put(5);
  }
  put(6);
}
int main(void) {
  __try {
    part0();
    put(7);
  } __except (1) {
    put(GetExceptionCode() % 256);
  }
  put(8);
  return 0;
}
