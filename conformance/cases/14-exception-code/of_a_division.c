// A division by zero has the code EXCEPTION_INT_DIVIDE_BY_ZERO, C0000094.
// Windows API reference, "EXCEPTION_RECORD structure".
int zero;
int test(int n) {
  __try {
    return n / zero;
  } __except (put(GetExceptionCode() == 0xC0000094), 1) {
    put(GetExceptionCode() == 0xC0000094);
  }
  return 3;
}
int main(void) {
  put(test(7));
  return 0;
}
