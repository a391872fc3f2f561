// A division in a leaf function is searched for from its caller on.
// Microsoft x64 ABI, "x64 exception handling", Unwind procedure.
int divide(int a, int b) { return a / b; }
int main(void) {
  int x = 4;
  __try {
    put(divide(7, 2));
    put(divide(7, x - 4));
  } __except (GetExceptionCode() == 0xC0000094) {
    put(x);
  }
  return 0;
}
