// A routine that has returned is no caller any more: its statements aren't asked.
// Microsoft C reference, "try-except statement (C)".
int say(int n, int answer) { put(n); return answer; }
void guarded(void) {
  __try {
    put(1);
  } __except (say(11, 1)) {
    put(12);
  }
}
int main(void) {
  __try {
    guarded();
    RaiseException(0xE0000001, 0, 0, 0);
  } __except (say(2, 1)) {
    put(3);
  }
  return 0;
}
