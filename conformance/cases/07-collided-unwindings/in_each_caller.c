// Each routine's __finally block raises another exception; each replaces the one before.
// Microsoft x64 ABI, "x64 exception handling", Language-specific handler.
void fail(int n) { RaiseException(0xE0000000 + n, 0, 0, 0); }
void deep(int n) {
  __try {
    if (n == 3) fail(9);
    deep(n + 1);
  } __finally {
    put(n);
    fail(n);
  }
}
int main(void) {
  __try {
    deep(0);
  } __except (1) {
    put(GetExceptionCode() == 0xE0000000);
  }
  put(5);
  return 0;
}
