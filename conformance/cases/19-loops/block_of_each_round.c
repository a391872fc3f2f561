// The __finally block runs once in each round.
// Microsoft C reference, "try-finally statement (C)".
int main(void) {
  int i = 0;
  while (i < 3) {
    __try {
      i = i + 1;
    } __finally {
      put(i);
    }
  }
  put(10);
  return 0;
}
