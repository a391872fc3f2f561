// A return in a routine that the section calls leaves that routine's sections alone.
// Windows API reference, "AbnormalTermination macro".
int callee(void) {
  __try {
    return 2;
  } __finally {
    put(AbnormalTermination());
  }
  return 11;
}
int main(void) {
  __try {
    put(callee());
  } __finally {
    put(AbnormalTermination());
  }
  return 0;
}
