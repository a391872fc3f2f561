// An exception that is handled inside a __finally block leaves the unwinding as it was.
// Microsoft x64 ABI, "x64 exception handling", Language-specific handler.
int main(void) {
  __try {
    __try {
      __try {
        RaiseException(0xE0000001, 0, 0, 0);
      } __finally {
        __try {
          RaiseException(0xE0000002, 0, 0, 0);
        } __except (1) {
          put(1);
        }
        put(2);
      }
    } __finally {
      put(3);
    }
  } __except (1) {
    put(GetExceptionCode() == 0xE0000001);
  }
  return 0;
}
