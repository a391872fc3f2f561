// A return out of the section terminates it abnormally.
// Windows API reference, "AbnormalTermination macro".
int test(void) {
  __try {
    return 2;
  } __finally {
    put(AbnormalTermination());
  }
  return 11;
}
int main(void) {
  put(test());
  return 0;
}
