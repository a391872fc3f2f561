// More locals than there are registers are kept over an exception.
// Microsoft x64 ABI, "x64 exception handling", Unwind procedure.
void fail(int n) { RaiseException(0xE0000000 + n, 0, 0, 0); }
int test(int n) {
  int a = n, b = n + 1, c = n + 2, d = n + 3, e = n + 4, f = n + 5, g = n + 6, h = n + 7;
  int i = n + 8, j = n + 9, k = n + 10, l = n + 11, m = n + 12, o = n + 13, p = n + 14;
  __try {
    b = a + b;
    o = o + p;
    fail(a);
    c = 0;
  } __except (1) {
    put(a + b + c + d + e + f);
    put(g + h + i + j + k);
  }
  return l + m + o + p;
}
int main(void) {
  put(test(1));
  return 0;
}
