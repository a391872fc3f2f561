// A guarded section in a loop is entered anew in each round.
// Microsoft C reference, "try-except statement (C)".
void fail(int n) { RaiseException(0xE0000000 + n, 0, 0, 0); }
int main(void) {
  int i;
  for (i = 0; i < 4; i++) {
    __try {
      if (i % 2) fail(i);
      put(i);
    } __except (1) {
      put(10 + i);
    }
  }
  return 0;
}
