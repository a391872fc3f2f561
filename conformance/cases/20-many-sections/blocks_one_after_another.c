// A __finally block that is past, or still to come, doesn't run for an exception between.
// Microsoft x64 ABI, "x64 exception handling", Language-specific handler.
void fail(int n, int wanted) {
  if (n == wanted) RaiseException(0xE0000001, 0, 0, 0);
}
void test(int n) {
  __try { fail(n, 1); } __finally { put(1); }
  __try { fail(n, 2); } __finally { put(2); }
  __try { fail(n, 3); } __finally { put(3); }
  fail(n, 4);
  __try { fail(n, 5); } __finally { put(5); }
}
int main(void) {
  int i;
  for (i = 1; i < 6; i++) {
    __try {
      test(i);
    } __except (1) {
      put(10 + i);
    }
  }
  return 0;
}
