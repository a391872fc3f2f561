// An exception in a __finally block that an unwinding runs is accepted on the way: its unwinding
// takes the place of the older one.
// Microsoft x64 ABI, "x64 exception handling", Language-specific handler.
int main(void) {
  __try {
    __try {
      __try {
        RaiseException(0xE0000001, 0, 0, 0);
      } __finally {
        put(1);
        RaiseException(0xE0000002, 0, 0, 0);
        put(11);
      }
    } __except (GetExceptionCode() == 0xE0000002) {
      put(2);
    }
    put(3);
  } __except (1) {
    put(12);
  }
  return 0;
}
