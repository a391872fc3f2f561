// A raise that isn't continued may be the last of a section, a block and a function.
// Microsoft x64 ABI, "x64 exception handling", Language-specific handler.
void test(int n) {
  __try {
    RaiseException(0xE0000001, 0, 0, 0);
  } __finally {
    put(n);
  }
}
void again(void) {
  __try {
    test(1);
  } __except (1) {
    RaiseException(0xE0000002, 0, 0, 0);
  }
}
int main(void) {
  __try {
    again();
  } __except (1) {
    put(GetExceptionCode() == 0xE0000002);
  }
  return 0;
}
