// An exception, in a section whose __finally block raises, in an __except block, in an __except
// block.
void fail(int n) { RaiseException(0xE0000000 + n, 0, 0, 0); }
void part0(void) {
  __try {
    fail(4);
  } __except (1) {
    put(1);
    __try {
      fail(4);
    } __except (1) {
      put(2);
      __try {
        put(3);
        fail(1);
        put(4);
      } __finally {
        put(5);
        if (AbnormalTermination()) fail(3);
      }
      put(6);
    }
  }
}
int main(void) {
  __try {
    part0();
    put(7);
  } __except (1) {
    put(GetExceptionCode() % 256);
  }
  put(8);
  return 0;
}
