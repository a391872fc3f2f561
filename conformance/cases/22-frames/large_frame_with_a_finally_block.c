// A __finally block finds the array of its frame, whose caller handles.
// Microsoft x64 ABI, "x64 exception handling", Unwind procedure.
void fail(void) { RaiseException(0xE0000001, 0, 0, 0); }
void large(int n) {
  int a[1500];
  int i;
  for (i = 0; i < 1500; i++) a[i] = i + n;
  __try {
    a[0] = 3;
    fail();
  } __finally {
    put(a[0] + a[1499]);
  }
}
int main(void) {
  __try {
    large(1);
  } __except (1) {
    put(1);
  }
  return 0;
}
