// A return, in a routine of a __finally block, in a section whose filter mends and continues, in
// a loop.
void fail(int n) { RaiseException(0xE0000000 + n, 0, 0, 0); }
int mending(unsigned code) {
  put(code % 256);
  protect((void *)0x20000000, 2);
  return code == 0xC0000025 || code == 0xC0000094 ? 1 : -1;
}
void part1(void) {
  put(1);
  return;
}
void part0(void) {
  int n0;
  for (n0 = 0; n0 < 2; n0++) {
    __try {
      __try {
        fail(5);
      } __finally {
        part1();
        put(2);
      }
    } __except (mending(GetExceptionCode())) {
      put(3);
    }
    put(4);
  }
}
int main(void) {
  __try {
    part0();
    put(5);
  } __except (1) {
    put(GetExceptionCode() % 256);
  }
  put(6);
  return 0;
}
