// A local that the section changed before the exception has the new value in the block.
// Microsoft C reference, "try-except statement (C)".
void fail(void) { RaiseException(0xE0000001, 0, 0, 0); }
int main(void) {
  int x = 1;
  __try {
    x = 2;
    fail();
    x = 3;
  } __except (1) {
    put(x);
  }
  put(x + 10);
  return 0;
}
