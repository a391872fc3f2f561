// The exception that takes its place is searched for from the same point, innermost filter first.
// Windows API reference, "EXCEPTION_RECORD structure".
int decide(int n, unsigned code, int first, int second) {
  put(n);
  return code == 0xC0000025 ? second : first;
}
void callee(void) {
  __try {
    RaiseException(0xE0000001, 1, 0, 0);
  } __except (decide(1, GetExceptionCode(), 0, 0)) {
    put(11);
  }
}
int main(void) {
  __try {
    __try {
      callee();
    } __except (decide(2, GetExceptionCode(), -1, 0)) {
      put(12);
    }
  } __except (decide(3, GetExceptionCode(), 1, 1)) {
    put(GetExceptionCode() == 0xC0000025);
  }
  return 0;
}
