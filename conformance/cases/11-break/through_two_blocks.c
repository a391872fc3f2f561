// A break through two guarded sections runs both blocks, the inner one first.
// Microsoft C reference, "try-finally statement (C)".
int main(void) {
  while (1) {
    __try {
      __try {
        put(1);
        break;
      } __finally {
        put(2);
      }
      put(11);
    } __finally {
      put(3);
    }
    put(12);
  }
  put(4);
  return 0;
}
