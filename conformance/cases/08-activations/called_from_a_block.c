// An __except block may call the function that it stands in: the frame is live as before.
// Microsoft C reference, "try-except statement (C)".
void test(int n) {
  int local = n * 3;
  __try {
    RaiseException(0xE0000001, 0, 0, 0);
  } __except (1) {
    if (n) test(n - 1);
    put(local);
  }
}
int main(void) {
  test(3);
  return 0;
}
