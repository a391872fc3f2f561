// An exception, in a section with a __finally block, in a section whose filter raises once, in a
// section whose filter goes on.
int asked;
void fail(int n) { RaiseException(0xE0000000 + n, 0, 0, 0); }
int raising(void) {
  asked = asked + 1;
  if (asked == 1) fail(2);
  return 0;
}
void part0(void) {
  __try {
    __try {
      __try {
        put(1);
        fail(1);
        put(2);
      } __finally {
        put(3 + AbnormalTermination());
      }
      put(5);
    } __except (raising()) {
      put(6);
    }
  } __except (put(7), 0) {
    put(8);
  }
}
int main(void) {
  __try {
    part0();
    put(9);
  } __except (1) {
    put(GetExceptionCode() % 256);
  }
  put(10);
  return 0;
}
