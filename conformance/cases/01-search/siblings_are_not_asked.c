// Only statements that contain the point of the exception are asked: none before it or after it.
// Microsoft C reference, "try-except statement (C)".
int say(int n, int answer) { put(n); return answer; }
int main(void) {
  __try {
    __try {
      put(1);
    } __except (say(11, 1)) {
      put(12);
    }
    RaiseException(0xE0000001, 0, 0, 0);
    __try {
      put(13);
    } __except (say(14, 1)) {
      put(15);
    }
  } __except (say(2, 1)) {
    put(3);
  }
  return 0;
}
