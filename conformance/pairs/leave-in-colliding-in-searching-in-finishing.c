// A __leave, in a section whose __finally block raises, in a section whose filter goes on, in a
// section with a __finally block.
void fail(int n) { RaiseException(0xE0000000 + n, 0, 0, 0); }
void part0(void) {
  __try {
    __try {
      __try {
        put(1);
        __leave;
      } __finally {
        put(2);
        if (AbnormalTermination()) fail(3);
      }
      put(3);
    } __except (put(4), 0) {
      put(5);
    }
  } __finally {
    put(6 + AbnormalTermination());
  }
  put(8);
}
int main(void) {
  __try {
    part0();
    put(9);
  } __except (1) {
    put(GetExceptionCode() % 256);
  }
  put(10);
  return 0;
}
