// An array of the frame keeps what the section and its routines wrote.
// Microsoft C reference, "try-except statement (C)".
void fill(int *to, int n) {
  int i;
  for (i = 0; i < n; i++) to[i] = i * i;
  RaiseException(0xE0000001, 0, 0, 0);
}
int main(void) {
  int squares[8];
  __try {
    fill(squares, 8);
  } __except (put(squares[3]), 1) {
    put(squares[7]);
  }
  return 0;
}
