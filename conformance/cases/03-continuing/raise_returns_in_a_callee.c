// Execution is continued in the routine that raised, whoever's filter decided so.
// Microsoft C reference, "try-except statement (C)".
int say(int n, int answer) { put(n); return answer; }
int callee(int n) {
  int twice = n * 2;
  RaiseException(0xE0000001, 0, 0, 0);
  put(twice);
  return twice + 1;
}
int main(void) {
  int x = 0;
  __try {
    x = callee(4);
  } __except (say(1, -1)) {
    put(11);
  }
  put(x);
  return 0;
}
