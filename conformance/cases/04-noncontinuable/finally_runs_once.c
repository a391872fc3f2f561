// Nothing is unwound until an exception is accepted, so the __finally block runs once.
// Microsoft C reference, "try-finally statement (C)".
int decide(unsigned code) {
  put(1);
  return code == 0xC0000025 ? 1 : -1;
}
int main(void) {
  __try {
    __try {
      RaiseException(0xE0000001, 1, 0, 0);
    } __finally {
      put(AbnormalTermination() + 1);
    }
  } __except (decide(GetExceptionCode())) {
    put(3);
  }
  return 0;
}
