// Where the inner filter leaves it, the containing statement's filter may continue.
// Microsoft C reference, "try-except statement (C)".
int say(int n, int answer) { put(n); return answer; }
int main(void) {
  __try {
    __try {
      RaiseException(0xE0000001, 0, 0, 0);
      put(3);
    } __except (say(1, 0)) {
      put(11);
    }
    put(4);
  } __except (say(2, -1)) {
    put(12);
  }
  return 0;
}
