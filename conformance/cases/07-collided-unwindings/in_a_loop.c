// Collisions one after another leave nothing behind: each round is as the first.
// Microsoft x64 ABI, "x64 exception handling", Language-specific handler.
int main(void) {
  int i;
  int sum = 0;
  for (i = 0; i < 100; i++) {
    __try {
      __try {
        RaiseException(0xE0000001, 0, 0, 0);
      } __finally {
        RaiseException(0xE0000002, 0, 0, 0);
      }
    } __except (1) {
      sum = sum + (GetExceptionCode() == 0xE0000002);
    }
  }
  put(sum);
  return 0;
}
