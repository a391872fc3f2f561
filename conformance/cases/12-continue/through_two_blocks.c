// A continue through two guarded sections runs both blocks, the inner one first.
// Microsoft C reference, "try-finally statement (C)".
int main(void) {
  int i = 0;
  while (i < 2) {
    i = i + 1;
    __try {
      __try {
        if (i == 1) continue;
      } __finally {
        put(i);
      }
      put(10 + i);
    } __finally {
      put(20 + i);
    }
    put(30 + i);
  }
  return 0;
}
