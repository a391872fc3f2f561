// An exception in a __finally block that an unwinding runs: its own unwinding replaces the older
// one.
int main(void) {
  __try {
    __try {
      __try {
        RaiseException(0xE0000001, 0, 0, 0);
      } __finally {
        RaiseException(0xE0000002, 0, 0, 0);
      }
    } __except (GetExceptionCode() == 0xE0000002) {
      put(2);
    }
  } __except (1) {
    put(1);
  }
  return 0;
}
