// __leave jumps to the end of the guarded section; the filter isn't asked, no block runs.
// Microsoft C reference, "try-except statement (C)".
int say(int n, int answer) { put(n); return answer; }
int main(void) {
  __try {
    put(1);
    __leave;
    put(11);
  } __except (say(12, 1)) {
    put(13);
  }
  put(2);
  return 0;
}
