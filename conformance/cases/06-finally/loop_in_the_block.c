// A loop in a __finally block may be left by break and continue: control stays in the block.
// Microsoft C reference, "try-finally statement (C)".
int main(void) {
  int i;
  __try {
    __try {
      RaiseException(0xE0000001, 0, 0, 0);
    } __finally {
      for (i = 0; i < 9; i++) {
        if (i == 1) continue;
        if (i == 3) break;
        put(i);
      }
      put(i);
    }
  } __except (1) {
    put(4);
  }
  return 0;
}
