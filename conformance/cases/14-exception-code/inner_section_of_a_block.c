// In a guarded section inside of an __except block the code is that block's.
// Windows API reference, "GetExceptionCode macro".
int main(void) {
  __try {
    RaiseException(0xE0000001, 0, 0, 0);
  } __except (1) {
    __try {
      put(GetExceptionCode() == 0xE0000001);
    } __except (1) {
      put(11);
    }
  }
  return 0;
}
