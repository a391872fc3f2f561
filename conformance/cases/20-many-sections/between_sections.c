// A call between two sections, and one in an outer section alone, is guarded by what is around it.
// Microsoft x64 ABI, "x64 exception handling", Language-specific handler.
void fail(int n, int wanted) {
  if (n == wanted) RaiseException(0xE0000001, 0, 0, 0);
}
void test(int n) {
  __try {
    fail(n, 1);
    __try { fail(n, 2); } __except (1) { put(2); }
    fail(n, 3);
    __try { fail(n, 4); } __except (1) { put(4); }
    fail(n, 5);
  } __except (1) {
    put(10 + n);
  }
}
int main(void) {
  int i;
  for (i = 1; i < 6; i++) test(i);
  return 0;
}
