// A handler is added in front of the others where the first argument isn't 0, else behind.
// Windows API reference, "AddVectoredExceptionHandler function".
int a(unsigned code, unsigned flags) { put(1); return 0; }
int b(unsigned code, unsigned flags) { put(2); return 0; }
int c(unsigned code, unsigned flags) { put(3); return 0; }
int d(unsigned code, unsigned flags) { put(4); return 0; }
int main(void) {
  AddVectoredExceptionHandler(0, a);
  AddVectoredExceptionHandler(0, b);
  AddVectoredExceptionHandler(1, c);
  AddVectoredExceptionHandler(1, d);
  __try {
    RaiseException(0xE0000001, 0, 0, 0);
  } __except (1) {
    put(5);
  }
  return 0;
}
