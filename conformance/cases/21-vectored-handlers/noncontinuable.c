// A handler finds the flag of a noncontinuable exception, and may leave it to the filters.
// Windows API reference, "AddVectoredExceptionHandler function".
int watch(unsigned code, unsigned flags) {
  put(flags & 1);
  return 0;
}
int main(void) {
  AddVectoredExceptionHandler(1, watch);
  __try {
    RaiseException(0xE0000001, 1, 0, 0);
  } __except (1) {
    put(2);
  }
  __try {
    RaiseException(0xE0000002, 0, 0, 0);
  } __except (1) {
    put(3);
  }
  return 0;
}
