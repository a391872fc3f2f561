// A second exception that an outer statement accepts takes the place of the first.
// Microsoft x64 ABI, "x64 exception handling", Language-specific handler.
int asked;
int bad(void) {
  asked = asked + 1;
  if (asked == 1) RaiseException(0xE0000002, 0, 0, 0);
  return 0;
}
int main(void) {
  __try {
    __try {
      __try {
        RaiseException(0xE0000001, 0, 0, 0);
      } __except (bad()) {
        put(11);
      }
      put(12);
    } __except (GetExceptionCode() == 0xE0000001) {
      put(13);
    }
  } __except (GetExceptionCode() == 0xE0000002) {
    put(asked);
  }
  return 0;
}
