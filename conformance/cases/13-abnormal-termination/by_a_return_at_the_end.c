// The same where the return is the last statement of the section, or of the function.
// Windows API reference, "AbnormalTermination macro".
void test(int n) {
  __try {
    put(n);
    return;
  } __finally {
    put(AbnormalTermination());
  }
}
int main(void) {
  test(3);
  return 0;
}
