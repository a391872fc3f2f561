// Locals of a block inside of the section are live in the statements that the block holds.
// Microsoft C reference, "try-except statement (C)".
void fail(void) { RaiseException(0xE0000001, 0, 0, 0); }
int main(void) {
  int x = 1;
  __try {
    int y = x + 1;
    {
      int z = y + 1;
      __try {
        fail();
      } __except (put(x + y + z), 1) {
        put(z);
      }
      put(y);
    }
  } __except (1) {
    put(11);
  }
  return 0;
}
