// The code stays the same for as long as the block runs.
// Windows API reference, "GetExceptionCode macro".
int main(void) {
  int i;
  int sum = 0;
  __try {
    RaiseException(0xE0000001, 0, 0, 0);
  } __except (1) {
    for (i = 0; i < 10; i++) {
      put(i == 4);
      if (i == 4) break;
    }
    sum = sum + (GetExceptionCode() == 0xE0000001);
  }
  put(sum);
  return 0;
}
