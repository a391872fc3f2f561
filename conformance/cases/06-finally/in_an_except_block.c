// A __finally statement in an __except block runs as anywhere else.
// Microsoft C reference, "try-finally statement (C)".
int main(void) {
  __try {
    __try {
      RaiseException(0xE0000001, 0, 0, 0);
    } __except (1) {
      __try {
        put(1);
        RaiseException(0xE0000002, 0, 0, 0);
      } __finally {
        put(2);
      }
      put(11);
    }
  } __except (1) {
    put(3);
  }
  return 0;
}
