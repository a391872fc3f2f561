// GetExceptionCode is of the innermost __except block in the text, also after one has ended.
// Windows API reference, "GetExceptionCode macro".
int main(void) {
  __try {
    RaiseException(0xE0000001, 0, 0, 0);
  } __except (1) {
    __try {
      RaiseException(0xE0000002, 0, 0, 0);
    } __except (1) {
      put(GetExceptionCode() == 0xE0000002);
    }
    put(GetExceptionCode() == 0xE0000001);
  }
  return 0;
}
