// A noncontinuable exception, in a routine of a __finally block, in an __except block.
void fail(int n) { RaiseException(0xE0000000 + n, 0, 0, 0); }
void part1(void) {
  put(2);
  RaiseException(0xE0000001, 1, 0, 0);
  put(3);
}
void part0(void) {
  __try {
    fail(4);
  } __except (1) {
    put(1);
    __try {
      fail(5);
    } __finally {
      part1();
      put(4);
    }
  }
}
int main(void) {
  __try {
    part0();
    put(5);
  } __except (1) {
    put(GetExceptionCode() % 256);
  }
  put(6);
  return 0;
}
