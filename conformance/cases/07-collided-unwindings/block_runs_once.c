// A __finally block whose run was interrupted, or has ended, isn't run again by the newer one.
// Microsoft x64 ABI, "x64 exception handling", Language-specific handler.
int runs;
int main(void) {
  __try {
    __try {
      __try {
        __try {
          RaiseException(0xE0000001, 0, 0, 0);
        } __finally {
          put(1);
        }
      } __finally {
        runs = runs + 1;
        put(2);
        RaiseException(0xE0000002, 0, 0, 0);
      }
    } __finally {
      put(3);
    }
  } __except (1) {
    put(runs);
  }
  return 0;
}
