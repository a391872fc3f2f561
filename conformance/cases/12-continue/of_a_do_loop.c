// A continue in a do loop evaluates the condition next, after the block has run.
// Microsoft C reference, "try-finally statement (C)".
int say(int n, int answer) { put(n); return answer; }
int main(void) {
  int i = 0;
  do {
    __try {
      i = i + 1;
      continue;
    } __finally {
      put(i);
    }
    put(11);
  } while (say(10 + i, i < 2));
  return 0;
}
