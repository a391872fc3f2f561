// The target of an unwinding is a frame: an outer activation of the function that raised.
// Microsoft x64 ABI, "x64 exception handling", Unwind procedure.
void test(int n) {
  __try {
    __try {
      if (n) test(n - 1);
      else RaiseException(0xE0000001, 0, 0, 0);
      put(10 + n);
    } __except (n == 1) {
      put(n);
    }
  } __finally {
    put(20 + n);
  }
}
int main(void) {
  test(2);
  return 0;
}
