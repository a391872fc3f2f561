// A return through three guarded sections, with a try-except between, runs all three blocks.
// Microsoft C reference, "try-finally statement (C)".
int test(void) {
  __try {
    __try {
      __try {
        __try {
          return 4;
        } __finally {
          put(1);
        }
      } __except (1) {
        put(11);
      }
    } __finally {
      put(2);
    }
  } __finally {
    put(3);
  }
  return 12;
}
int main(void) {
  put(test());
  return 0;
}
