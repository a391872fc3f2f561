// A break out of the section terminates it abnormally.
// Windows API reference, "AbnormalTermination macro".
int main(void) {
  int i;
  for (i = 0; i < 3; i++) {
    __try {
      if (i == 1) break;
    } __finally {
      put(AbnormalTermination());
    }
  }
  return 0;
}
