// A division by zero, in a section with a __finally block, in a section whose filter raises once,
// in a loop.
int asked;
void fail(int n) { RaiseException(0xE0000000 + n, 0, 0, 0); }
int zero;
int raising(void) {
  asked = asked + 1;
  if (asked == 1) fail(2);
  return 0;
}
void part0(void) {
  int n0;
  for (n0 = 0; n0 < 2; n0++) {
    __try {
      __try {
        put(1);
        put(7 / zero);
        put(2);
      } __finally {
        put(3 + AbnormalTermination());
      }
      put(5);
    } __except (raising()) {
      put(6);
    }
    put(7);
  }
}
int main(void) {
  __try {
    part0();
    put(8);
  } __except (1) {
    put(GetExceptionCode() % 256);
  }
  put(9);
  return 0;
}
