// The value of a return is evaluated before the block runs; the block doesn't change it.
// Microsoft C reference, "try-finally statement (C)".
int test(int n) {
  int x = n;
  __try {
    return x + 1;
  } __finally {
    x = 50;
    put(x);
  }
  return 11;
}
int main(void) {
  put(test(4));
  return 0;
}
