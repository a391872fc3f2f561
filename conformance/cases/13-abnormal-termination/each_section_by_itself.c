// Of nested sections the inner one may end normally, and the outer one abnormally.
// Windows API reference, "AbnormalTermination macro".
int main(void) {
  __try {
    __try {
      __try {
        put(1);
      } __finally {
        put(AbnormalTermination());
      }
      RaiseException(0xE0000001, 0, 0, 0);
    } __finally {
      put(AbnormalTermination());
    }
  } __except (1) {
    put(2);
  }
  return 0;
}
