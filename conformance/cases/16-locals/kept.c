// The frame that handles an exception has its locals as they were at the call.
// Microsoft x64 ABI, "x64 exception handling", Unwind procedure.
void busy(int n) {
  int a = n * 2;
  int b = n * 3;
  int c = n * 4;
  put(a + b + c);
  RaiseException(0xE0000001, 0, 0, 0);
}
int main(void) {
  int x = 1;
  int y = 2;
  int z = 3;
  __try {
    busy(x + y + z);
  } __except (1) {
    put(x);
    put(y);
    put(z);
  }
  return 0;
}
