// A __finally block whose section control hasn't entered doesn't run.
// Microsoft C reference, "try-finally statement (C)".
int main(void) {
  __try {
    RaiseException(0xE0000001, 0, 0, 0);
    __try {
      put(11);
    } __finally {
      put(12);
    }
  } __except (1) {
    put(1);
  }
  return 0;
}
