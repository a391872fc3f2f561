// An exception, in an __except block, in a section whose filter accepts, in an __except block.
void fail(int n) { RaiseException(0xE0000000 + n, 0, 0, 0); }
void part0(void) {
  __try {
    fail(4);
  } __except (1) {
    put(1);
    __try {
      __try {
        fail(4);
      } __except (1) {
        put(2);
        put(3);
        fail(1);
        put(4);
      }
    } __except (put(5), 1) {
      put(6);
    }
  }
}
int main(void) {
  __try {
    part0();
    put(7);
  } __except (1) {
    put(GetExceptionCode() % 256);
  }
  put(8);
  return 0;
}
