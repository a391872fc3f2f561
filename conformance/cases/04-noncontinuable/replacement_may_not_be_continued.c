// The exception that takes its place is noncontinuable too.
// Windows API reference, "EXCEPTION_RECORD structure".
int decide(unsigned code, unsigned flags) {
  put(flags & 1);
  return code == 0xC0000025 ? 1 : -1;
}
int main(void) {
  __try {
    RaiseException(0xE0000001, 1, 0, 0);
  } __except (decide(GetExceptionCode(),
                     GetExceptionInformation()->ExceptionRecord->ExceptionFlags)) {
    put(2);
  }
  return 0;
}
