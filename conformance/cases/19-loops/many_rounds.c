// Exceptions one after another leave nothing behind on the stack.
// Microsoft x64 ABI, "x64 exception handling", Unwind procedure.
void fail(int n) { RaiseException(0xE0000000 + n, 0, 0, 0); }
int main(void) {
  int i;
  int blocks = 0;
  int handled = 0;
  for (i = 0; i < 300; i++) {
    __try {
      __try {
        fail(i);
      } __finally {
        blocks = blocks + 1;
      }
    } __except (1) {
      handled = handled + (GetExceptionCode() == 0xE0000000 + i);
    }
  }
  put(blocks);
  put(handled);
  return 0;
}
