// __leave in a loop inside the guarded section leaves the loop, too.
// Microsoft C reference, "try-finally statement (C)", The __leave keyword.
int main(void) {
  int i = 0;
  __try {
    while (1) {
      int j;
      for (j = 0; j < 10; j++) {
        i = i + 1;
        if (i == 25) __leave;
      }
    }
  } __finally {
    put(i);
  }
  return 0;
}
