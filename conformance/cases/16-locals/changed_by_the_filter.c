// A local that the filter assigns to has the new value in the block and after it.
// Microsoft C reference, "try-except statement (C)".
void fail(void) { RaiseException(0xE0000001, 0, 0, 0); }
int main(void) {
  int x = 1;
  __try {
    fail();
  } __except (x = x + 5, 1) {
    put(x);
  }
  put(x + 10);
  return 0;
}
