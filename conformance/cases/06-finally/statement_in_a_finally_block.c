// A __finally block may hold a statement of its own; its exception is handled there.
// Microsoft C reference, "try-finally statement (C)".
int main(void) {
  __try {
    put(1);
  } __finally {
    __try {
      put(2);
      RaiseException(0xE0000001, 0, 0, 0);
      put(11);
    } __except (1) {
      put(3);
    }
    put(4);
  }
  put(5);
  return 0;
}
