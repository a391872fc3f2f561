// Each of two loops is left through its own sections.
// Microsoft C reference, "try-finally statement (C)".
int main(void) {
  int i;
  int j = 0;
  for (i = 0; i < 3; i++) {
    __try {
      while (1) {
        __try {
          j = j + 1;
          if (j % 2 == 0) break;
        } __finally {
          put(j);
        }
      }
      if (i == 1) break;
    } __finally {
      put(10 + i);
    }
  }
  put(20 + i);
  return 0;
}
