// A __finally block that an exception runs reads the locals as the section left them.
// Microsoft C reference, "try-finally statement (C)".
void fail(void) { RaiseException(0xE0000001, 0, 0, 0); }
void test(int n) {
  int i;
  int sum = 0;
  __try {
    for (i = 0; i < n; i++) {
      sum = sum + i;
      if (i == 3) fail();
    }
  } __finally {
    put(sum);
    put(i);
  }
}
int main(void) {
  test(3);
  __try {
    test(5);
  } __except (1) {
    put(1);
  }
  return 0;
}
