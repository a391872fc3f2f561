// The newer exception goes on through the callers of the routine whose __finally block raised.
// Microsoft x64 ABI, "x64 exception handling", Language-specific handler.
void inner(void) {
  __try {
    RaiseException(0xE0000001, 0, 0, 0);
  } __finally {
    put(1);
    RaiseException(0xE0000002, 0, 0, 0);
  }
}
void middle(void) {
  __try {
    inner();
    put(11);
  } __finally {
    put(2);
  }
}
int main(void) {
  __try {
    __try {
      middle();
    } __except (GetExceptionCode() == 0xE0000002) {
      put(3);
    }
    put(4);
  } __except (1) {
    put(12);
  }
  return 0;
}
