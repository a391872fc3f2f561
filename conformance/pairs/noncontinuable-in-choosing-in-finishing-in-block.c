// A noncontinuable exception, in a section whose filter takes one code, in a section with a
// __finally block, in an __except block.
void fail(int n) { RaiseException(0xE0000000 + n, 0, 0, 0); }
void part0(void) {
  __try {
    fail(4);
  } __except (1) {
    put(1);
    __try {
      __try {
        put(2);
        RaiseException(0xE0000001, 1, 0, 0);
        put(3);
      } __except (GetExceptionCode() == 0xE0000003) {
        put(4);
      }
      put(5);
    } __finally {
      put(6 + AbnormalTermination());
    }
    put(8);
  }
}
int main(void) {
  __try {
    part0();
    put(9);
  } __except (1) {
    put(GetExceptionCode() % 256);
  }
  put(10);
  return 0;
}
