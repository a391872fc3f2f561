// A continue of an outer loop leaves the sections between, and none of another round.
// Microsoft C reference, "try-finally statement (C)".
int main(void) {
  int i;
  int j;
  for (i = 0; i < 2; i++) {
    __try {
      for (j = 0; j < 3; j++) {
        __try {
          if (j == 1) break;
        } __finally {
          put(j);
        }
      }
      if (i == 0) continue;
      put(5);
    } __finally {
      put(10 + i);
    }
    put(20 + i);
  }
  return 0;
}
