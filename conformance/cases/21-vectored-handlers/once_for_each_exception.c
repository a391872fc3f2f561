// A handler is called once for an exception, however many filters are asked.
// Windows API reference, "AddVectoredExceptionHandler function".
int calls;
int watch(unsigned code, unsigned flags) {
  calls = calls + 1;
  return 0;
}
int main(void) {
  AddVectoredExceptionHandler(1, watch);
  __try {
    __try {
      __try {
        RaiseException(0xE0000001, 0, 0, 0);
      } __except (put(1), 0) {
        put(11);
      }
    } __except (put(2), 0) {
      put(12);
    }
  } __except (put(3), 1) {
    put(calls);
  }
  return 0;
}
