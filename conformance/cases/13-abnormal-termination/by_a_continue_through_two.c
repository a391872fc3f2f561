// A continue terminates each section that it leaves abnormally.
// Windows API reference, "AbnormalTermination macro".
int main(void) {
  int i;
  for (i = 0; i < 2; i++) {
    __try {
      __try {
        if (i == 0) continue;
      } __finally {
        put(AbnormalTermination());
      }
    } __finally {
      put(10 + AbnormalTermination());
    }
  }
  return 0;
}
