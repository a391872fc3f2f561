// A return, in an __except block, in a section whose filter raises once, in a section with a
// __finally block.
int asked;
void fail(int n) { RaiseException(0xE0000000 + n, 0, 0, 0); }
int raising(void) {
  asked = asked + 1;
  if (asked == 1) fail(2);
  return 0;
}
void part0(void) {
  __try {
    __try {
      __try {
        fail(4);
      } __except (1) {
        put(1);
        put(2);
        return;
      }
    } __except (raising()) {
      put(3);
    }
  } __finally {
    put(4 + AbnormalTermination());
  }
  put(6);
}
int main(void) {
  __try {
    part0();
    put(7);
  } __except (1) {
    put(GetExceptionCode() % 256);
  }
  put(8);
  return 0;
}
