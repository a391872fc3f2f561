// A second __finally block on the way may raise again: the third exception replaces the second.
// Microsoft x64 ABI, "x64 exception handling", Language-specific handler.
int main(void) {
  __try {
    __try {
      __try {
        __try {
          RaiseException(0xE0000001, 0, 0, 0);
        } __finally {
          put(1);
          RaiseException(0xE0000002, 0, 0, 0);
        }
      } __finally {
        put(2);
        RaiseException(0xE0000003, 0, 0, 0);
      }
    } __except (GetExceptionCode() == 0xE0000003) {
      put(3);
    }
  } __except (1) {
    put(11);
  }
  return 0;
}
