// A handler that continues ends the asking: those behind it aren't called.
// Windows API reference, "AddVectoredExceptionHandler function".
int a(unsigned code, unsigned flags) { put(1); return 0; }
int b(unsigned code, unsigned flags) { put(2); return code == 0xE0000001 ? -1 : 0; }
int c(unsigned code, unsigned flags) { put(3); return 0; }
int main(void) {
  AddVectoredExceptionHandler(0, a);
  AddVectoredExceptionHandler(0, b);
  AddVectoredExceptionHandler(0, c);
  __try {
    RaiseException(0xE0000001, 0, 0, 0);
    put(4);
    RaiseException(0xE0000002, 0, 0, 0);
  } __except (1) {
    put(5);
  }
  return 0;
}
