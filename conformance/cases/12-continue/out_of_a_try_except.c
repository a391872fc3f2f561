// A continue out of a guarded section goes to the loop's next round; no filter is asked.
// Microsoft C reference, "try-except statement (C)".
int say(int n, int answer) { put(n); return answer; }
int main(void) {
  int i;
  for (i = 0; i < 3; i++) {
    __try {
      if (i == 1) continue;
      put(i);
    } __except (say(11, 1)) {
      put(12);
    }
    put(10 + i);
  }
  return 0;
}
