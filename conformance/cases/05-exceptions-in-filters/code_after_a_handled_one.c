// GetExceptionCode in a filter is of its own exception, after another was handled there too.
// Windows API reference, "GetExceptionCode macro".
int careful(int n) {
  __try {
    RaiseException(0xE0000002, 0, 0, 0);
  } __except (GetExceptionCode() == 0xE0000002) {
    put(n);
  }
  return 1;
}
int main(void) {
  __try {
    RaiseException(0xE0000001, 0, 0, 0);
  } __except (careful(1), put(GetExceptionCode() == 0xE0000001), careful(2)) {
    put(GetExceptionCode() == 0xE0000001);
  }
  return 0;
}
