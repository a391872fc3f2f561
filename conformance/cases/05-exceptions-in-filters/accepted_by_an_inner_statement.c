// A statement inside the one whose filter runs may accept; the older exception is gone with it.
// Microsoft x64 ABI, "x64 exception handling", Language-specific handler.
int raised;
int outer(void) {
  raised = raised + 1;
  put(raised);
  RaiseException(0xE0000002, 0, 0, 0);
  return 1;
}
int main(void) {
  __try {
    __try {
      RaiseException(0xE0000001, 0, 0, 0);
    } __except (GetExceptionCode() == 0xE0000002) {
      put(2);
    }
    put(3);
  } __except (outer()) {
    put(11);
  }
  put(4);
  return 0;
}
