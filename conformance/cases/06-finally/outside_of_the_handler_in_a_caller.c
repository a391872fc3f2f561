// The __finally block of a caller that isn't left by the unwinding doesn't run for it.
// Microsoft C reference, "try-finally statement (C)".
void callee(void) {
  __try {
    __try {
      RaiseException(0xE0000001, 0, 0, 0);
    } __finally {
      put(1);
    }
  } __except (1) {
    put(2);
  }
}
int main(void) {
  __try {
    callee();
    put(3);
  } __finally {
    put(4);
  }
  return 0;
}
