// A __finally block of an unwinding may call the function that it stands in.
// Microsoft C reference, "try-finally statement (C)".
void test(int n) {
  __try {
    __try {
      RaiseException(0xE0000001, 0, 0, 0);
    } __finally {
      put(n);
      if (n) test(n - 1);
      put(10 + n);
    }
  } __except (1) {
    put(20 + n);
  }
}
int main(void) {
  test(2);
  return 0;
}
