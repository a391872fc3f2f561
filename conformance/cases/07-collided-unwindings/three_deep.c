// Three __finally blocks raise one after another; the last exception is the one that lands.
// Microsoft x64 ABI, "x64 exception handling", Language-specific handler.
int main(void) {
  __try {
    __try {
      __try {
        __try {
          RaiseException(0xE0000001, 0, 0, 0);
        } __finally {
          put(1);
          RaiseException(0xE0000002, 0, 0, 0);
        }
      } __finally {
        put(2);
        RaiseException(0xE0000003, 0, 0, 0);
      }
    } __finally {
      put(3);
      RaiseException(0xE0000004, 0, 0, 0);
    }
  } __except (1) {
    put(GetExceptionCode() == 0xE0000004);
  }
  put(5);
  return 0;
}
