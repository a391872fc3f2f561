// Parameters that are passed on the stack are found after an exception.
// Microsoft x64 ABI, "x64 exception handling", Unwind procedure.
void fail(void) { RaiseException(0xE0000001, 0, 0, 0); }
long long test(int a, int b, int c, int d, int e, int f, int g, int h) {
  __try {
    __try {
      fail();
    } __finally {
      e = e + 1;
      put(h * 10 + g);
    }
  } __except (put(f * 10 + e), 1) {
    put(d * 10 + c);
  }
  return a + 10 * b + 100 * c + 1000 * d + 10000 * e + 100000 * f + 1000000 * g + 10000000 * h;
}
int main(void) {
  put(test(1, 2, 3, 4, 5, 6, 7, 8));
  return 0;
}
