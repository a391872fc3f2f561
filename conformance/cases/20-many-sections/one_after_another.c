// Of many sections the one that holds the point of the exception is asked.
// Microsoft x64 ABI, "x64 exception handling", Language-specific handler.
void fail(int n, int wanted) {
  if (n == wanted) RaiseException(0xE0000001, 0, 0, 0);
}
void test(int n) {
  __try { fail(n, 1); } __except (1) { put(1); }
  __try { fail(n, 2); } __except (1) { put(2); }
  __try { fail(n, 3); } __except (1) { put(3); }
  __try { fail(n, 4); } __except (1) { put(4); }
  __try { fail(n, 5); } __except (1) { put(5); }
  __try { fail(n, 6); } __except (1) { put(6); }
  __try { fail(n, 7); } __except (1) { put(7); }
  __try { fail(n, 8); } __except (1) { put(8); }
}
int main(void) {
  int i;
  for (i = 8; i > 0; i--) test(i);
  return 0;
}
