// A return out of loops in a guarded section leaves them all.
// Microsoft C reference, "try-finally statement (C)".
int test(int wanted) {
  int i;
  int j;
  for (i = 0; i < 5; i++) {
    __try {
      for (j = 0; j < 5; j++) {
        if (i * 10 + j == wanted) return wanted;
      }
    } __finally {
      put(i);
    }
  }
  return -1;
}
int main(void) {
  put(test(13));
  put(test(41 + 9));
  return 0;
}
