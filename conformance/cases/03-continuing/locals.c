// After a continued exception the locals of the section are as they were.
// Microsoft C reference, "try-except statement (C)".
int busy(int n) {
  int a = n + 1;
  int b = n + 2;
  int c = n + 3;
  put(a + b + c);
  return -1;
}
int main(void) {
  int x = 3;
  int y = 5;
  int z = 7;
  __try {
    x = x * y;
    RaiseException(0xE0000001, 0, 0, 0);
    z = x + y * z;
  } __except (busy(10)) {
    put(11);
  }
  put(x);
  put(y);
  put(z);
  return 0;
}
