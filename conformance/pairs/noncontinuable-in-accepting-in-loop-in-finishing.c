// A noncontinuable exception, in a section whose filter accepts, in a loop, in a section with a
// __finally block.
void part0(void) {
  __try {
    int n1;
    for (n1 = 0; n1 < 2; n1++) {
      __try {
        put(1);
        RaiseException(0xE0000001, 1, 0, 0);
        put(2);
      } __except (put(3), 1) {
        put(4);
      }
      put(5);
    }
  } __finally {
    put(6 + AbnormalTermination());
  }
  put(8);
}
int main(void) {
  __try {
    part0();
    put(9);
  } __except (1) {
    put(GetExceptionCode() % 256);
  }
  put(10);
  return 0;
}
