// An exception in a __finally block may be continued: the block goes on, and then the unwinding.
// Microsoft C reference, "try-except statement (C)".
int decide(unsigned code) {
  put(code == 0xE0000002);
  return code == 0xE0000002 ? -1 : 1;
}
int main(void) {
  __try {
    __try {
      RaiseException(0xE0000001, 0, 0, 0);
    } __finally {
      put(2);
      RaiseException(0xE0000002, 0, 0, 0);
      put(3);
    }
  } __except (decide(GetExceptionCode())) {
    put(GetExceptionCode() == 0xE0000001);
  }
  return 0;
}
