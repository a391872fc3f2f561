// A filter may assign to a local; after continuing the section finds the new value.
// Microsoft C reference, "try-except statement (C)".
int main(void) {
  int x = 1;
  __try {
    RaiseException(0xE0000001, 0, 0, 0);
    put(x);
  } __except (x = x + 4, -1) {
    put(11);
  }
  put(x + 1);
  return 0;
}
