// A handler is called about an exception in a filter as about any other.
// Windows API reference, "AddVectoredExceptionHandler function".
int watch(unsigned code, unsigned flags) {
  put(code == 0xE0000002);
  return 0;
}
int careful(void) {
  __try {
    RaiseException(0xE0000002, 0, 0, 0);
  } __except (1) {
    put(2);
  }
  return 1;
}
int main(void) {
  AddVectoredExceptionHandler(1, watch);
  __try {
    RaiseException(0xE0000001, 0, 0, 0);
  } __except (careful()) {
    put(3);
  }
  return 0;
}
