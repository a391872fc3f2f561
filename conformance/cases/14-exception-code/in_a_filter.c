// GetExceptionCode in a filter is the code of the exception that is searched for.
// Windows API reference, "GetExceptionCode macro".
int show(unsigned code) {
  put(code);
  return 1;
}
int main(void) {
  __try {
    RaiseException(0xE0000001, 0, 0, 0);
  } __except (show(GetExceptionCode())) {
    put(1);
  }
  __try {
    RaiseException(0x00000005, 0, 0, 0);
  } __except (show(GetExceptionCode())) {
    put(2);
  }
  return 0;
}
