// Once a handler is found the __finally block runs, then the handler; what follows it is left.
// Microsoft C reference, "try-finally statement (C)".
int main(void) {
  __try {
    __try {
      put(1);
      RaiseException(0xE0000001, 0, 0, 0);
      put(11);
    } __finally {
      put(2);
    }
    put(12);
  } __except (1) {
    put(3);
  }
  put(4);
  return 0;
}
