// The sections of each activation are left from the innermost on, then those of its caller.
// Microsoft x64 ABI, "x64 exception handling", Unwind procedure.
void test(int n, int odd) {
  __try {
    if (n == 0) RaiseException(0xE0000001, 0, 0, 0);
    if (odd) {
      __try {
        test(n - 1, 0);
      } __finally {
        put(10 + n);
      }
    } else {
      test(n - 1, 1);
    }
  } __finally {
    put(n);
  }
}
int main(void) {
  __try {
    test(3, 0);
  } __except (1) {
    put(4);
  }
  return 0;
}
