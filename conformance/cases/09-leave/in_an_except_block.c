// An __except block is outside of its own section: __leave there ends the containing one.
// Microsoft C reference, "try-finally statement (C)", The __leave keyword.
int main(void) {
  __try {
    __try {
      RaiseException(0xE0000001, 0, 0, 0);
    } __except (1) {
      put(1);
      __leave;
      put(11);
    }
    put(12);
  } __finally {
    put(AbnormalTermination());
  }
  put(2);
  return 0;
}
