// GetExceptionCode in an __except block is the code of the exception that was accepted.
// Windows API reference, "GetExceptionCode macro".
int main(void) {
  __try {
    RaiseException(0xE0000001, 0, 0, 0);
  } __except (1) {
    put(GetExceptionCode());
  }
  __try {
    RaiseException(0x00000005, 0, 0, 0);
  } __except (1) {
    put(GetExceptionCode());
  }
  return 0;
}
