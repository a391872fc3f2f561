// EXCEPTION_NONCONTINUABLE is in the record's flags where the exception may not be continued.
// Windows API reference, "EXCEPTION_RECORD structure".
void test(unsigned flags) {
  __try {
    RaiseException(0xE0000001, flags, 0, 0);
  } __except (put(GetExceptionInformation()->ExceptionRecord->ExceptionFlags & 1), 1) {
    put(2);
  }
}
int main(void) {
  test(0);
  test(1);
  return 0;
}
