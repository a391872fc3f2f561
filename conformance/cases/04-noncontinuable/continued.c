// Continuing a noncontinuable exception raises EXCEPTION_NONCONTINUABLE_EXCEPTION, C0000025.
// Windows API reference, "EXCEPTION_RECORD structure".
int decide(unsigned code) {
  put(code == 0xC0000025);
  return code == 0xC0000025 ? 1 : -1;
}
int main(void) {
  __try {
    RaiseException(0xE0000001, 1, 0, 0);
    put(11);
  } __except (decide(GetExceptionCode())) {
    put(GetExceptionCode() == 0xC0000025);
  }
  return 0;
}
