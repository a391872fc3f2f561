// A continue, in a section with a __finally block, in a section whose filter goes on, in a
// section whose filter raises once.
int asked;
void fail(int n) { RaiseException(0xE0000000 + n, 0, 0, 0); }
int raising(void) {
  asked = asked + 1;
  if (asked == 1) fail(2);
  return 0;
}
void part0(void) {
  int i;
  for (i = 0; i < 2; i++) {
    __try {
      __try {
        __try {
          put(1);
          continue;
        } __finally {
          put(2 + AbnormalTermination());
        }
        put(4);
      } __except (put(5), 0) {
        put(6);
      }
    } __except (raising()) {
      put(7);
    }
    put(8);
  }
}
int main(void) {
  __try {
    part0();
    put(9);
  } __except (1) {
    put(GetExceptionCode() % 256);
  }
  put(10);
  return 0;
}
