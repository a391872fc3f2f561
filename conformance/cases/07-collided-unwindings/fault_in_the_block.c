// A fault in a __finally block is an exception as any other.
// Microsoft x64 ABI, "x64 exception handling", Language-specific handler.
int zero;
int main(void) {
  __try {
    __try {
      __try {
        RaiseException(0xE0000001, 0, 0, 0);
      } __finally {
        put(1);
        put(1 / zero);
      }
    } __except (GetExceptionCode() == 0xC0000094) {
      put(2);
    }
  } __except (1) {
    put(11);
  }
  return 0;
}
