// The block that accepts the second of two exceptions has the second one's code.
// Windows API reference, "GetExceptionCode macro".
int main(void) {
  __try {
    __try {
      RaiseException(0xE0000001, 0, 0, 0);
    } __except (1) {
      put(GetExceptionCode() == 0xE0000001);
      RaiseException(0xE0000002, 0, 0, 0);
    }
  } __except (put(GetExceptionCode() == 0xE0000002), 1) {
    put(GetExceptionCode() == 0xE0000002);
  }
  return 0;
}
