// A handler that was removed isn't called any more.
// Windows API reference, "AddVectoredExceptionHandler function".
int watch(unsigned code, unsigned flags) {
  put(1);
  return 0;
}
void test(int n) {
  __try {
    RaiseException(0xE0000001, 0, 0, 0);
  } __except (1) {
    put(n);
  }
}
int main(void) {
  test(2);
  put(AddVectoredExceptionHandler(1, watch));
  test(3);
  put(RemoveVectoredExceptionHandler(watch));
  test(4);
  put(RemoveVectoredExceptionHandler(watch));
  return 0;
}
