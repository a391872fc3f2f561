// The frame that the newer unwinding lands in has its locals, and so have its callers.
// Microsoft x64 ABI, "x64 exception handling", Language-specific handler.
void test(int a) {
  int b = a + 1;
  __try {
    __try {
      RaiseException(0xE0000001, 0, 0, 0);
    } __finally {
      b = b * 10;
      RaiseException(0xE0000002, 0, 0, 0);
    }
  } __except (GetExceptionCode() == 0xE0000002) {
    put(a);
    put(b);
  }
}
int main(void) {
  int x = 20;
  int y = 30;
  __try {
    test(4);
    put(11);
  } __except (1) {
    put(x + 1);
    put(y + 1);
  }
  put(x);
  put(y);
  return 0;
}
