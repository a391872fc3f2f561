// Where a filter continues a noncontinuable exception the handlers are called about C0000025.
// Windows API reference, "EXCEPTION_RECORD structure".
int watch(unsigned code, unsigned flags) {
  put(code == 0xC0000025);
  return 0;
}
int decide(unsigned code) { return code == 0xC0000025 ? 1 : -1; }
int main(void) {
  AddVectoredExceptionHandler(1, watch);
  __try {
    RaiseException(0xE0000001, 1, 0, 0);
  } __except (decide(GetExceptionCode())) {
    put(2);
  }
  return 0;
}
