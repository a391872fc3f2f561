// An exception in a routine that the guarded section calls is searched for through all callers.
// Microsoft C reference, "try-except statement (C)".
int say(int n, int answer) { put(n); return answer; }
void inner(void) {
  __try {
    RaiseException(0xE0000001, 0, 0, 0);
  } __except (say(1, 0)) {
    put(11);
  }
  put(12);
}
void middle(void) {
  __try {
    inner();
  } __except (say(2, 0)) {
    put(13);
  }
  put(14);
}
int main(void) {
  __try {
    middle();
  } __except (say(3, 1)) {
    put(15);
  }
  return 0;
}
