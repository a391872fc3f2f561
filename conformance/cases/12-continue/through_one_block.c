// A continue out of a guarded section runs its __finally block first.
// Microsoft C reference, "try-finally statement (C)".
int main(void) {
  int i;
  for (i = 0; i < 3; i++) {
    __try {
      if (i == 1) continue;
      put(i);
    } __finally {
      put(10 + i);
    }
    put(20 + i);
  }
  return 0;
}
