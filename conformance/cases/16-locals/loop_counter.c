// A loop goes on with its counter after each exception that was handled in it.
// Microsoft C reference, "try-except statement (C)".
void fail(int n) { RaiseException(0xE0000000 + n, 0, 0, 0); }
int main(void) {
  int i;
  int sum = 0;
  for (i = 0; i < 10; i++) {
    __try {
      if (i % 3 == 0) fail(i);
      sum = sum + i;
    } __except (1) {
      sum = sum + 100;
    }
  }
  put(i);
  put(sum);
  return 0;
}
