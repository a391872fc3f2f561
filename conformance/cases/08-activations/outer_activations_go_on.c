// Activations outside of the one that accepts aren't unwound: they go on as after any call.
// Microsoft x64 ABI, "x64 exception handling", Unwind procedure.
int test(int n) {
  int sum = 0;
  __try {
    if (n == 4) RaiseException(0xE0000001, 0, 0, 0);
    sum = test(n + 1) + 1;
  } __except (n == 2) {
    sum = 100;
  }
  put(n);
  return sum;
}
int main(void) {
  put(test(0));
  return 0;
}
