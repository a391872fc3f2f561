// The caller's __finally block runs for a fault of a leaf function.
// Microsoft x64 ABI, "x64 exception handling", Unwind procedure.
int get(int *from) { return *from; }
int test(int n) {
  __try {
    return get((int *)0x20005000) + n;
  } __finally {
    put(n + AbnormalTermination());
  }
  return 11;
}
int main(void) {
  __try {
    put(test(4));
  } __except (1) {
    put(6);
  }
  return 0;
}
