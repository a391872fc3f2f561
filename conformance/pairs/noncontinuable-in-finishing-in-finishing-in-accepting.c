// A noncontinuable exception, in a section with a __finally block, in a section with a __finally
// block, in a section whose filter accepts.
void part0(void) {
  __try {
    __try {
      __try {
        put(1);
        RaiseException(0xE0000001, 1, 0, 0);
        put(2);
      } __finally {
        put(3 + AbnormalTermination());
      }
      put(5);
    } __finally {
      put(6 + AbnormalTermination());
    }
    put(8);
  } __except (put(9), 1) {
    put(10);
  }
}
int main(void) {
  __try {
    part0();
    put(11);
  } __except (1) {
    put(GetExceptionCode() % 256);
  }
  put(12);
  return 0;
}
