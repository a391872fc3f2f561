// Continuing a noncontinuable exception of a __finally block raises C0000025 there.
// Microsoft x64 ABI, "x64 exception handling", Language-specific handler.
int decide(unsigned code) {
  if (code == 0xE0000002) return -1;
  return 1;
}
int main(void) {
  __try {
    __try {
      RaiseException(0xE0000001, 0, 0, 0);
    } __finally {
      put(1);
      RaiseException(0xE0000002, 1, 0, 0);
      put(11);
    }
  } __except (decide(GetExceptionCode())) {
    put(GetExceptionCode() == 0xC0000025);
  }
  return 0;
}
