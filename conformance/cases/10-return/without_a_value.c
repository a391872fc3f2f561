// A return without a value runs the block, too.
// Microsoft C reference, "try-finally statement (C)".
void test(int n) {
  __try {
    if (n) return;
    put(1);
  } __finally {
    put(2);
  }
  put(3);
}
int main(void) {
  test(0);
  test(1);
  return 0;
}
