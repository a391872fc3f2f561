// The same where the outer block runs for an exception.
// Microsoft C reference, "try-finally statement (C)".
void fail(void) { RaiseException(0xE0000001, 0, 0, 0); }
int main(void) {
  int y = 5;
  __try {
    __try {
      fail();
    } __finally {
      int x = y + 1;
      __try {
        fail();
      } __except (put(x), 1) {
        x = x + y;
      }
      put(x);
    }
  } __except (1) {
    put(y);
  }
  return 0;
}
