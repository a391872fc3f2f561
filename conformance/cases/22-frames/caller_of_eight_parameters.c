// The locals of a caller that passes arguments on the stack are kept over the unwinding.
// Microsoft x64 ABI, "x64 exception handling", Unwind procedure.
int callee(int a, int b, int c, int d, int e, int f, int g, int h) {
  a = a * 2;
  d = d * 3;
  h = h * 4;
  if (h > 0) RaiseException(0xE0000001, 0, 0, 0);
  return a + b + c + d + e + f + g + h;
}
int main(void) {
  int a = 1, b = 2, c = 3, d = 4, e = 5, f = 6, g = 7, h = 8;
  __try {
    put(callee(h, g, f, e, d, c, b, a));
  } __except (1) {
    put(a + 10 * b + 100 * c + 1000 * d);
    put(e + 10 * f + 100 * g + 1000 * h);
  }
  return 0;
}
