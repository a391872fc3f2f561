// A return through two guarded sections runs both blocks, the inner one first.
// Microsoft C reference, "try-finally statement (C)".
int test(void) {
  __try {
    __try {
      return 3;
    } __finally {
      put(1);
    }
    put(11);
  } __finally {
    put(2);
  }
  return 12;
}
int main(void) {
  put(test());
  return 0;
}
