// The newer exception may be accepted by a statement outside of the older one's target.
// Microsoft x64 ABI, "x64 exception handling", Language-specific handler.
int main(void) {
  __try {
    __try {
      __try {
        RaiseException(0xE0000001, 0, 0, 0);
      } __finally {
        put(1);
        RaiseException(0xE0000002, 0, 0, 0);
      }
    } __except (GetExceptionCode() == 0xE0000001) {
      put(11);
    }
    put(12);
  } __except (GetExceptionCode() == 0xE0000002) {
    put(2);
  }
  return 0;
}
