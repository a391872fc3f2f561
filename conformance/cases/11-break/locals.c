// A break through a block leaves the locals as the section and the block left them.
// Microsoft C reference, "try-finally statement (C)".
int main(void) {
  int x = 1;
  int y = 2;
  int i;
  for (i = 0; i < 9; i++) {
    __try {
      x = x * 2;
      if (x == 16) break;
    } __finally {
      y = y + x;
    }
  }
  put(x);
  put(y);
  put(i);
  return 0;
}
