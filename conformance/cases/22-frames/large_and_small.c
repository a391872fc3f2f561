// Frames of different sizes between the raise and the handler are unwound one after another.
// Microsoft x64 ABI, "x64 exception handling", Unwind procedure.
void fail(void) { RaiseException(0xE0000001, 0, 0, 0); }
void small(int n) {
  __try {
    if (n) fail();
  } __finally {
    put(n);
  }
}
void large(int n) {
  char a[9000];
  a[0] = 1;
  a[8999] = n;
  __try {
    small(a[8999] + a[0]);
  } __finally {
    put(a[8999]);
  }
}
void middle(int n) {
  int a[20];
  a[19] = n;
  large(a[19] + 1);
  put(11);
}
int main(void) {
  int x = 9;
  __try {
    middle(6);
  } __except (1) {
    put(x);
  }
  return 0;
}
