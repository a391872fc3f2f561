// A routine of a filter may leave a guarded section by return: its __finally block runs first.
// Microsoft C reference, "try-finally statement (C)".
int decide(int n) {
  __try {
    return n == 2;
  } __finally {
    put(AbnormalTermination());
  }
  return 1;
}
int main(void) {
  __try {
    __try {
      RaiseException(0xE0000001, 0, 0, 0);
    } __except (decide(1)) {
      put(11);
    }
  } __except (decide(2)) {
    put(2);
  }
  return 0;
}
