// A __finally statement in a __finally block ends by itself, before the outer block goes on.
// Microsoft C reference, "try-finally statement (C)".
int main(void) {
  __try {
    __try {
      RaiseException(0xE0000001, 0, 0, 0);
    } __finally {
      __try {
        put(1);
      } __finally {
        put(2);
      }
      put(3);
    }
  } __except (1) {
    put(4);
  }
  return 0;
}
