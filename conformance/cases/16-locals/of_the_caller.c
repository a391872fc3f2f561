// An unwinding gives the frame that it lands in its own registers back.
// Microsoft x64 ABI, "x64 exception handling", Unwind procedure.
int deep(int n) {
  int a = n + 1;
  int b = n + 2;
  int c = n + 3;
  if (n == 0) RaiseException(0xE0000001, 0, 0, 0);
  a = deep(n - 1) + a;
  b = deep(n - 2) + b;
  return a + b + c;
}
int main(void) {
  int p = 10;
  int q = 20;
  int r = 30;
  int i;
  for (i = 1; i < 4; i++) {
    __try {
      p = p + i;
      put(deep(i));
      q = 0;
    } __except (1) {
      r = r + p;
    }
  }
  put(p);
  put(q);
  put(r);
  return 0;
}
