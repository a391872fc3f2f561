// A vectored handler is called before the frame-based handlers are searched.
// Windows API reference, "AddVectoredExceptionHandler function".
int watch(unsigned code, unsigned flags) {
  put(code == 0xE0000001);
  return 0;
}
int main(void) {
  AddVectoredExceptionHandler(1, watch);
  __try {
    RaiseException(0xE0000001, 0, 0, 0);
  } __except (put(2), 1) {
    put(3);
  }
  return 0;
}
