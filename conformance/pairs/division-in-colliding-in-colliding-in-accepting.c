// A division by zero, in a section whose __finally block raises, in a section whose __finally
// block raises, in a section whose filter accepts.
void fail(int n) { RaiseException(0xE0000000 + n, 0, 0, 0); }
int zero;
void part0(void) {
  __try {
    __try {
      __try {
        put(1);
        put(7 / zero);
        put(2);
      } __finally {
        put(3);
        if (AbnormalTermination()) fail(3);
      }
      put(4);
    } __finally {
      put(5);
      if (AbnormalTermination()) fail(3);
    }
    put(6);
  } __except (put(7), 1) {
    put(8);
  }
}
int main(void) {
  __try {
    part0();
    put(9);
  } __except (1) {
    put(GetExceptionCode() % 256);
  }
  put(10);
  return 0;
}
