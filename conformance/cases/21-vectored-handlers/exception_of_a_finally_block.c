// A handler is called about an exception in a __finally block as about any other.
// Windows API reference, "AddVectoredExceptionHandler function".
int watch(unsigned code, unsigned flags) {
  put(code == 0xE0000002);
  return 0;
}
int main(void) {
  AddVectoredExceptionHandler(1, watch);
  __try {
    __try {
      RaiseException(0xE0000001, 0, 0, 0);
    } __finally {
      put(2);
      RaiseException(0xE0000002, 0, 0, 0);
    }
  } __except (put(3), 1) {
    put(GetExceptionCode() == 0xE0000002);
  }
  return 0;
}
