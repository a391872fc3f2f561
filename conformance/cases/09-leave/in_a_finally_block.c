// In a __finally block __leave ends a section inside of the block.
// Microsoft C reference, "try-finally statement (C)", The __leave keyword.
int main(void) {
  __try {
    __try {
      RaiseException(0xE0000001, 0, 0, 0);
    } __finally {
      __try {
        put(1);
        __leave;
        put(11);
      } __except (1) {
        put(12);
      }
      put(2);
    }
  } __except (1) {
    put(3);
  }
  return 0;
}
