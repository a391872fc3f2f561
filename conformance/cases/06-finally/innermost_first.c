// The __finally blocks of nested statements run from the innermost to the outermost.
// Microsoft C reference, "try-finally statement (C)".
int main(void) {
  __try {
    __try {
      __try {
        __try {
          RaiseException(0xE0000001, 0, 0, 0);
        } __finally {
          put(1);
        }
      } __finally {
        put(2);
      }
    } __finally {
      put(3);
    }
  } __except (1) {
    put(4);
  }
  return 0;
}
