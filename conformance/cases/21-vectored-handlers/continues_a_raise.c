// After EXCEPTION_CONTINUE_EXECUTION of a vectored handler no filter is asked.
// Windows API reference, "AddVectoredExceptionHandler function".
int watch(unsigned code, unsigned flags) {
  put(1);
  return -1;
}
int main(void) {
  AddVectoredExceptionHandler(1, watch);
  __try {
    RaiseException(0xE0000001, 0, 0, 0);
    put(2);
  } __except (put(11), 1) {
    put(12);
  }
  return 0;
}
