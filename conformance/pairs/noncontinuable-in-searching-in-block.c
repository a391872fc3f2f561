// A noncontinuable exception, in a section whose filter goes on, in an __except block.
void fail(int n) { RaiseException(0xE0000000 + n, 0, 0, 0); }
void part0(void) {
  __try {
    fail(4);
  } __except (1) {
    put(1);
    __try {
      put(2);
      RaiseException(0xE0000001, 1, 0, 0);
      put(3);
    } __except (put(4), 0) {
      put(5);
    }
  }
}
int main(void) {
  __try {
    part0();
    put(6);
  } __except (1) {
    put(GetExceptionCode() % 256);
  }
  put(7);
  return 0;
}
