// A local that a __finally block assigns to has the new value in the handler.
// Microsoft C reference, "try-finally statement (C)".
void fail(void) { RaiseException(0xE0000001, 0, 0, 0); }
int main(void) {
  int x = 1;
  __try {
    __try {
      x = 2;
      fail();
    } __finally {
      x = x * 10;
    }
  } __except (1) {
    put(x);
  }
  return 0;
}
