// Both exceptions may be accepted by one statement; its block runs once, for the newer one.
// Microsoft x64 ABI, "x64 exception handling", Language-specific handler.
int asked;
int count(void) {
  asked = asked + 1;
  return 1;
}
int main(void) {
  __try {
    __try {
      RaiseException(0xE0000001, 0, 0, 0);
    } __finally {
      put(1);
      RaiseException(0xE0000002, 0, 0, 0);
    }
  } __except (count()) {
    put(asked);
    put(GetExceptionCode() == 0xE0000002);
  }
  put(3);
  return 0;
}
