// An empty __finally block changes nothing of an unwinding.
// Microsoft C reference, "try-finally statement (C)".
int main(void) {
  __try {
    __try {
      put(1);
      RaiseException(0xE0000001, 0, 0, 0);
    } __finally {
    }
    put(11);
  } __except (1) {
    put(2);
  }
  return 0;
}
