// A filter is asked once for each activation, with that activation's locals.
// Microsoft x64 ABI, "x64 exception handling", Language-specific handler.
void test(int n) {
  int local = n * 10;
  __try {
    if (n < 3) test(n + 1);
    else RaiseException(0xE0000001, 0, 0, 0);
  } __except (put(local), n == 0) {
    put(n + 5);
  }
}
int main(void) {
  test(0);
  return 0;
}
