// A return out of an __except block runs the __finally blocks around that statement.
// Microsoft C reference, "try-finally statement (C)".
int test(void) {
  __try {
    __try {
      RaiseException(0xE0000001, 0, 0, 0);
    } __except (1) {
      put(1);
      return 3;
    }
    put(11);
  } __finally {
    put(2 * AbnormalTermination());
  }
  return 12;
}
int main(void) {
  put(test());
  return 0;
}
