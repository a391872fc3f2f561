// A return terminates each section that it leaves abnormally.
// Windows API reference, "AbnormalTermination macro".
int test(void) {
  __try {
    __try {
      return 2;
    } __finally {
      put(AbnormalTermination());
    }
  } __finally {
    put(10 + AbnormalTermination());
  }
  return 12;
}
int main(void) {
  put(test());
  return 0;
}
