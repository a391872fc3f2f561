// Each exception is searched for anew, from the statement around its own point.
// Microsoft C reference, "try-except statement (C)".
int say(int n, int answer) { put(n); return answer; }
void fail(int n) { RaiseException(0xE0000000 + n, 0, 0, 0); }
int main(void) {
  __try {
    fail(1);
  } __except (say(1, 1)) {
    put(2);
  }
  __try {
    __try {
      fail(2);
    } __except (say(3, 0)) {
      put(11);
    }
  } __except (say(4, 1)) {
    put(5);
  }
  __try {
    fail(3);
  } __except (say(6, 1)) {
    put(7);
  }
  return 0;
}
