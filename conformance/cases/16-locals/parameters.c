// Parameters are locals: filter, block and __finally block find them.
// Microsoft C reference, "try-except statement (C)".
void fail(int n) { RaiseException(0xE0000000 + n, 0, 0, 0); }
int test(int a, int b, int c, int d, int e, int f) {
  __try {
    __try {
      fail(a);
    } __finally {
      put(a + b);
    }
  } __except (put(c + d), 1) {
    put(e + f);
  }
  return a + b + c + d + e + f;
}
int main(void) {
  put(test(1, 20, 300, 4000, 50000, 600000));
  return 0;
}
