// A __finally block of the newer unwinding may raise too, while both older ones are suspended.
// Microsoft x64 ABI, "x64 exception handling", Language-specific handler.
void thrower(void) {
  __try {
    RaiseException(0xE0000002, 0, 0, 0);
  } __finally {
    put(2);
    RaiseException(0xE0000003, 0, 0, 0);
  }
}
int main(void) {
  __try {
    __try {
      RaiseException(0xE0000001, 0, 0, 0);
    } __finally {
      put(1);
      thrower();
      put(11);
    }
  } __except (1) {
    put(GetExceptionCode() == 0xE0000003);
  }
  put(4);
  return 0;
}
