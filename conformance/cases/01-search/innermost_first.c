// The innermost try-except statement is asked first; once it accepts, no outer one is asked.
// Microsoft C reference, "try-except statement (C)".
int say(int n, int answer) { put(n); return answer; }
int main(void) {
  __try {
    __try {
      RaiseException(0xE0000001, 0, 0, 0);
    } __except (say(1, 1)) {
      put(2);
    }
  } __except (say(3, 1)) {
    put(4);
  }
  put(5);
  return 0;
}
