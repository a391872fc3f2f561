// In a __finally block inside of an __except block the code is that __except block's.
// Windows API reference, "GetExceptionCode macro".
int main(void) {
  __try {
    RaiseException(0xE0000001, 0, 0, 0);
  } __except (1) {
    __try {
      put(1);
    } __finally {
      put(GetExceptionCode() == 0xE0000001);
    }
  }
  return 0;
}
