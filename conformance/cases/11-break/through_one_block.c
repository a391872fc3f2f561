// A break out of a guarded section runs its __finally block first.
// Microsoft C reference, "try-finally statement (C)".
int main(void) {
  int i;
  for (i = 0; i < 5; i++) {
    __try {
      if (i == 2) break;
    } __finally {
      put(i);
    }
  }
  put(10 + i);
  return 0;
}
