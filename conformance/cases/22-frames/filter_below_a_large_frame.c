// A filter that needs a large frame itself runs below the frames that it is asked about.
// Microsoft x64 ABI, "x64 exception handling", Language-specific handler.
int decide(int n) {
  int a[1200];
  int i;
  for (i = 0; i < 1200; i++) a[i] = i;
  return a[1199] == n;
}
void test(int n) {
  int a[1200];
  int i;
  for (i = 0; i < 1200; i++) a[i] = 2 * i;
  __try {
    RaiseException(0xE0000001, 0, 0, 0);
  } __except (decide(n)) {
    put(a[1199]);
  }
}
int main(void) {
  test(1199);
  __try {
    test(5);
  } __except (1) {
    put(1);
  }
  return 0;
}
