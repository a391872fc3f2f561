// A return out of a guarded section asks no filter, and runs no __except block.
// Microsoft C reference, "try-except statement (C)".
int say(int n, int answer) { put(n); return answer; }
int test(void) {
  __try {
    return 1;
  } __except (say(11, 1)) {
    return 12;
  }
  return 13;
}
int main(void) {
  put(test());
  return 0;
}
