// A function's array and a pointer to its variable: what a callee wrote before it raised is there.
int fill(int *a, int n, int *done) {
  int i;
  for (i = 0; i < n; i++) {
    if (i == 3)
      RaiseException(0xE0000001, 0, 0, 0);
    a[i] = i * i;
    *done = i + 1;
  }
  return n;
}
int main(void) {
  int squares[5];
  int done = 0;
  int i;
  __try {
    fill(squares, 5, &done);
  } __except (done < 5) {
    put(done);
  }
  for (i = 0; i < 5; i++)
    put(squares[i]);
  return 0;
}
