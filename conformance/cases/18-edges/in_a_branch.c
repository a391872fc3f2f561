// Sections stand in the branches of an if as anywhere else.
// Microsoft C reference, "try-except statement (C)".
void fail(int n) { RaiseException(0xE0000000 + n, 0, 0, 0); }
void test(int n) {
  if (n % 2)
    __try {
      fail(n);
    } __except (1) {
      put(n);
    }
  else
    __try {
      if (n) fail(n);
    } __finally {
      put(10 + n);
    }
}
int main(void) {
  test(1);
  test(0);
  __try {
    test(2);
  } __except (1) {
    put(2);
  }
  return 0;
}
