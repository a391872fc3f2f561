// After EXCEPTION_CONTINUE_EXECUTION RaiseException returns to where it was called.
// Windows API reference, "RaiseException function".
int say(int n, int answer) { put(n); return answer; }
int main(void) {
  __try {
    put(1);
    RaiseException(0xE0000001, 0, 0, 0);
    put(3);
  } __except (say(2, EXCEPTION_CONTINUE_EXECUTION)) {
    put(11);
  }
  put(4);
  return 0;
}
