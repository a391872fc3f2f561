// A noncontinuable exception, in a section whose filter goes on, in a section whose __finally
// block raises, in a loop.
void fail(int n) { RaiseException(0xE0000000 + n, 0, 0, 0); }
void part0(void) {
  int n0;
  for (n0 = 0; n0 < 2; n0++) {
    __try {
      __try {
        put(1);
        RaiseException(0xE0000001, 1, 0, 0);
        put(2);
      } __except (put(3), 0) {
        put(4);
      }
    } __finally {
      put(5);
      if (AbnormalTermination()) fail(3);
    }
    put(6);
    put(7);
  }
}
int main(void) {
  __try {
    part0();
    put(8);
  } __except (1) {
    put(GetExceptionCode() % 256);
  }
  put(9);
  return 0;
}
