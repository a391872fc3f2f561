// A noncontinuable exception, in a loop, in an __except block, in a routine of a __finally block.
void fail(int n) { RaiseException(0xE0000000 + n, 0, 0, 0); }
void part1(void) {
  __try {
    fail(4);
  } __except (1) {
    put(1);
    int n2;
    for (n2 = 0; n2 < 2; n2++) {
      put(2);
      RaiseException(0xE0000001, 1, 0, 0);
      put(3);
      put(4);
    }
  }
}
void part0(void) {
  __try {
    fail(5);
  } __finally {
    part1();
    put(5);
  }
}
int main(void) {
  __try {
    part0();
    put(6);
  } __except (1) {
    put(GetExceptionCode() % 256);
  }
  put(7);
  return 0;
}
