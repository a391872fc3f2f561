// A newer exception of an inner activation's block may land in a middle one.
// Microsoft x64 ABI, "x64 exception handling", Unwind procedure.
void test(int n) {
  __try {
    __try {
      if (n == 3) RaiseException(0xE0000001, 0, 0, 0);
      test(n + 1);
    } __finally {
      put(n);
      if (n == 2) RaiseException(0xE0000002, 0, 0, 0);
    }
  } __except (GetExceptionCode() == 0xE0000002 ? n == 1 : n == 0) {
    put(10 + n);
  }
}
int main(void) {
  test(0);
  return 0;
}
