// A break terminates each section that it leaves abnormally.
// Windows API reference, "AbnormalTermination macro".
int main(void) {
  while (1) {
    __try {
      __try {
        break;
      } __finally {
        put(AbnormalTermination());
      }
    } __finally {
      put(10 + AbnormalTermination());
    }
  }
  put(2);
  return 0;
}
