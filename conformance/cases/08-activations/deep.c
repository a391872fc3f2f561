// Many activations are searched, and each of them is unwound.
// Microsoft x64 ABI, "x64 exception handling", Unwind procedure.
int filters;
int blocks;
void test(int n) {
  __try {
    __try {
      if (n == 60) RaiseException(0xE0000001, 0, 0, 0);
      test(n + 1);
    } __finally {
      blocks = blocks + 1;
    }
  } __except (filters = filters + 1, 0) {
    put(11);
  }
}
int main(void) {
  __try {
    test(1);
  } __except (1) {
    put(filters);
    put(blocks);
  }
  return 0;
}
