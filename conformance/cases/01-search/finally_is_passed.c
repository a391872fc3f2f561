// A __finally statement doesn't block the search for a handler.
// Microsoft C reference, "try-finally statement (C)".
int say(int n, int answer) { put(n); return answer; }
int main(void) {
  __try {
    __try {
      __try {
        RaiseException(0xE0000001, 0, 0, 0);
      } __except (say(1, 0)) {
        put(11);
      }
    } __finally {
      put(2);
    }
  } __except (say(3, 1)) {
    put(4);
  }
  return 0;
}
