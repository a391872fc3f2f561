// An exception terminates the section abnormally.
// Microsoft C reference, "try-finally statement (C)".
int main(void) {
  __try {
    __try {
      RaiseException(0xE0000001, 0, 0, 0);
    } __finally {
      put(AbnormalTermination());
    }
  } __except (1) {
    put(2);
  }
  return 0;
}
