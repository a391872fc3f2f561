// The same where a routine that the __finally block calls raises and handles.
// Microsoft x64 ABI, "x64 exception handling", Language-specific handler.
void careful(void) {
  __try {
    __try {
      RaiseException(0xE0000002, 0, 0, 0);
    } __finally {
      put(1);
    }
  } __except (1) {
    put(2);
  }
}
int main(void) {
  __try {
    __try {
      RaiseException(0xE0000001, 0, 0, 0);
    } __finally {
      careful();
      put(3);
    }
  } __except (1) {
    put(GetExceptionCode() == 0xE0000001);
  }
  return 0;
}
