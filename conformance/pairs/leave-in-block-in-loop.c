// A __leave, in an __except block, in a loop.
void fail(int n) { RaiseException(0xE0000000 + n, 0, 0, 0); }
void part0(void) {
  int n0;
  for (n0 = 0; n0 < 2; n0++) {
    __try {
      fail(4);
    } __except (1) {
      put(1);
      __try {
        put(2);
        __leave;
      } __finally {
        put(3);
      }
    }
    put(4);
  }
}
int main(void) {
  __try {
    part0();
    put(5);
  } __except (1) {
    put(GetExceptionCode() % 256);
  }
  put(6);
  return 0;
}
