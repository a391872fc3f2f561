// A frame of more than a page may be the target of an unwinding, and keeps its array.
// Microsoft x64 ABI, "x64 exception handling", Unwind procedure.
void fail(void) { RaiseException(0xE0000001, 0, 0, 0); }
int main(void) {
  int a[3000];
  int i;
  for (i = 0; i < 3000; i++) a[i] = i;
  __try {
    a[2999] = 7;
    fail();
  } __except (put(a[2998]), a[2998] = 8, 1) {
    put(a[2999] + a[2998]);
  }
  put(a[0] + a[1]);
  return 0;
}
