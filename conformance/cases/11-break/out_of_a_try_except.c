// A break out of a guarded section leaves the loop; no filter is asked.
// Microsoft C reference, "try-except statement (C)".
int say(int n, int answer) { put(n); return answer; }
int main(void) {
  int i;
  for (i = 0; i < 5; i++) {
    __try {
      if (i == 2) break;
      put(i);
    } __except (say(11, 1)) {
      put(12);
    }
  }
  put(i);
  return 0;
}
