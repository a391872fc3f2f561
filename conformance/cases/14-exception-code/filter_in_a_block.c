// A filter inside of an __except block has its own exception's code.
// Windows API reference, "GetExceptionCode macro".
int main(void) {
  __try {
    RaiseException(0xE0000001, 0, 0, 0);
  } __except (1) {
    __try {
      RaiseException(0xE0000002, 0, 0, 0);
    } __except (put(GetExceptionCode() == 0xE0000002), 1) {
      put(2);
    }
  }
  return 0;
}
