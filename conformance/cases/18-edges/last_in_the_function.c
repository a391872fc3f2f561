// A statement may be the last of its function: after its block the function returns.
// Microsoft C reference, "try-except statement (C)".
void fail(void) { RaiseException(0xE0000001, 0, 0, 0); }
void test(void) {
  __try {
    fail();
  } __except (1) {
    put(1);
  }
}
int main(void) {
  test();
  put(2);
  return 0;
}
