// A filter that is asked about a second exception may raise a third.
// Microsoft x64 ABI, "x64 exception handling", Language-specific handler.
int asked;
int bad(void) {
  asked = asked + 1;
  put(asked);
  if (asked < 3) RaiseException(0xE0000001 + asked, 0, 0, 0);
  return 1;
}
int main(void) {
  __try {
    __try {
      RaiseException(0xE0000001, 0, 0, 0);
    } __except (bad()) {
      put(GetExceptionCode() == 0xE0000003);
    }
  } __except (1) {
    put(11);
  }
  return 0;
}
