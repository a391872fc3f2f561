// An exception in a loop inside of a section leaves the loop.
// Microsoft C reference, "try-except statement (C)".
void fail(int n) { RaiseException(0xE0000000 + n, 0, 0, 0); }
int main(void) {
  int i = 0;
  __try {
    for (i = 0; i < 10; i++) {
      if (i == 3) fail(i);
      put(i);
    }
  } __except (1) {
    put(10 + i);
  }
  return 0;
}
