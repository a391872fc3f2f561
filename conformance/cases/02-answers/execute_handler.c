// After EXCEPTION_EXECUTE_HANDLER the block runs, and execution goes on after it.
// Microsoft C reference, "try-except statement (C)".
int main(void) {
  put(1);
  __try {
    put(2);
    RaiseException(0xE0000001, 0, 0, 0);
    put(11);
  } __except (EXCEPTION_EXECUTE_HANDLER) {
    put(3);
  }
  put(4);
  return 0;
}
