// A __leave, in an __except block.
void fail(int n) { RaiseException(0xE0000000 + n, 0, 0, 0); }
void part0(void) {
  __try {
    fail(4);
  } __except (1) {
    put(1);
    __try {
      put(2);
      __leave;
    } __finally {
      put(3);
    }
  }
}
int main(void) {
  __try {
    part0();
    put(4);
  } __except (1) {
    put(GetExceptionCode() % 256);
  }
  put(5);
  return 0;
}
