// A return, in a section whose __finally block raises, in a section whose filter goes on, in a
// loop.
void fail(int n) { RaiseException(0xE0000000 + n, 0, 0, 0); }
void part0(void) {
  int n0;
  for (n0 = 0; n0 < 2; n0++) {
    __try {
      __try {
        put(1);
        return;
      } __finally {
        put(2);
        if (AbnormalTermination()) fail(3);
      }
      put(3);
    } __except (put(4), 0) {
      put(5);
    }
    put(6);
  }
}
int main(void) {
  __try {
    part0();
    put(7);
  } __except (1) {
    put(GetExceptionCode() % 256);
  }
  put(8);
  return 0;
}
