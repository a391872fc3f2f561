// ExceptionCode of the record is the code that GetExceptionCode gives.
// Windows API reference, "EXCEPTION_RECORD structure".
int same(unsigned code, unsigned other) {
  put(code == other);
  return 1;
}
int main(void) {
  __try {
    RaiseException(0xE0000001, 0, 0, 0);
  } __except (same(GetExceptionCode(), GetExceptionInformation()->ExceptionRecord->ExceptionCode)) {
    put(2);
  }
  return 0;
}
