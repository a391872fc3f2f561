// Each exception is handled in the loop in which its section stands.
// Microsoft C reference, "try-except statement (C)".
void fail(int n) { RaiseException(0xE0000000 + n, 0, 0, 0); }
int main(void) {
  int i;
  int j;
  int sum = 0;
  for (i = 0; i < 3; i++) {
    __try {
      for (j = 0; j < 4; j++) {
        __try {
          if (j == 1) fail(1);
          if (j == 2 && i == 1) fail(2);
          sum = sum + 1;
        } __except (GetExceptionCode() == 0xE0000001) {
          sum = sum + 10;
        }
      }
    } __except (1) {
      sum = sum + 100;
    }
  }
  put(sum);
  return 0;
}
