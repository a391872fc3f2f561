// Sections in the blocks of other sections are guarded by what is around those statements.
// Microsoft x64 ABI, "x64 exception handling", Language-specific handler.
void fail(int n, int wanted) {
  if (n == wanted) RaiseException(0xE0000000 + n, 0, 0, 0);
}
void test(int n) {
  __try {
    __try {
      RaiseException(0xE000000F, 0, 0, 0);
    } __except (1) {
      __try { fail(n, 1); } __except (1) { put(1); }
      fail(n, 2);
      __try { fail(n, 3); } __finally { put(3); }
    }
    __try { put(4); } __finally {
      fail(n, 4);
      __try { fail(n, 5); } __except (1) { put(5); }
    }
  } __except (1) {
    put(10 + n);
  }
}
int main(void) {
  int i;
  for (i = 1; i < 6; i++) test(i);
  return 0;
}
