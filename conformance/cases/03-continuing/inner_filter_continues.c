// After EXCEPTION_CONTINUE_EXECUTION no further filter is asked.
// Microsoft C reference, "try-except statement (C)".
int say(int n, int answer) { put(n); return answer; }
int main(void) {
  __try {
    __try {
      RaiseException(0xE0000001, 0, 0, 0);
      put(2);
    } __except (say(1, -1)) {
      put(11);
    }
  } __except (say(12, 1)) {
    put(13);
  }
  return 0;
}
