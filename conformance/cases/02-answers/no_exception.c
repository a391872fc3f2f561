// Where no exception occurs neither filter nor block runs; execution goes on after the statement.
// Microsoft C reference, "try-except statement (C)".
int say(int n, int answer) { put(n); return answer; }
int main(void) {
  __try {
    put(1);
  } __except (say(11, 1)) {
    put(12);
  }
  put(2);
  return 0;
}
