// A frame of more than a page is unwound as a small one.
// Microsoft x64 ABI, "x64 exception handling", Unwind procedure.
int sum(int *a, int n) {
  int i;
  int s = 0;
  for (i = 0; i < n; i++) s = s + a[i];
  if (s > 100) RaiseException(0xE0000001, 0, 0, 0);
  return s;
}
int large(int n) {
  int a[2000];
  int i;
  for (i = 0; i < 2000; i++) a[i] = n;
  return sum(a, 2000) + a[1999];
}
int main(void) {
  int x = 5;
  __try {
    put(large(0));
    put(large(1));
  } __except (1) {
    put(x);
  }
  put(x + 1);
  return 0;
}
