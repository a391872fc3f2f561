// A section that a newer exception leaves terminates abnormally, too.
// Windows API reference, "AbnormalTermination macro".
int main(void) {
  __try {
    __try {
      __try {
        put(1);
      } __finally {
        put(AbnormalTermination());
        RaiseException(0xE0000001, 0, 0, 0);
      }
    } __finally {
      put(10 + AbnormalTermination());
    }
  } __except (1) {
    put(2);
  }
  return 0;
}
