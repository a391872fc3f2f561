// The search goes from statement to containing statement until a filter accepts.
// Microsoft C reference, "try-except statement (C)".
int say(int n, int answer) { put(n); return answer; }
int main(void) {
  __try {
    __try {
      __try {
        RaiseException(0xE0000001, 0, 0, 0);
      } __except (say(1, 0)) {
        put(11);
      }
      put(12);
    } __except (say(2, 0)) {
      put(13);
    }
    put(14);
  } __except (say(3, 1)) {
    put(15);
  }
  return 0;
}
