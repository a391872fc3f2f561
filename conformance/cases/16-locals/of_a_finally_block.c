// A local of a __finally block is found in a __finally block inside of it.
// Microsoft C reference, "try-finally statement (C)".
int main(void) {
  __try {
    put(1);
  } __finally {
    int x = 2;
    __try {
      x = x + 1;
    } __finally {
      put(x);
    }
    put(x + 1);
  }
  return 0;
}
