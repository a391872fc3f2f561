// In a block inside of a block AbnormalTermination is of the inner section.
// Windows API reference, "AbnormalTermination macro".
int main(void) {
  __try {
    __try {
      RaiseException(0xE0000001, 0, 0, 0);
    } __finally {
      put(AbnormalTermination());
      __try {
        put(2);
      } __finally {
        put(10 + AbnormalTermination());
      }
      put(20 + AbnormalTermination());
    }
  } __except (1) {
    put(3);
  }
  return 0;
}
