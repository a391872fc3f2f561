// Many large frames are searched and unwound.
// Microsoft x64 ABI, "x64 exception handling", Unwind procedure.
void deep(int n) {
  int a[600];
  int i;
  for (i = 0; i < 600; i++) a[i] = n + i;
  __try {
    if (n == 0) RaiseException(0xE0000001, 0, 0, 0);
    deep(n - 1);
  } __finally {
    put(a[599] - a[0] + n);
  }
}
int main(void) {
  __try {
    deep(3);
  } __except (1) {
    put(1);
  }
  return 0;
}
