// A handler becomes active when control enters its __try, and not where control goes past it.
// Microsoft C reference, "try-finally statement (C)".
int say(int n, int answer) { put(n); return answer; }
void test(int guarded) {
  if (guarded) {
    __try {
      RaiseException(0xE0000001, 0, 0, 0);
    } __except (say(1, 1)) {
      put(2);
    }
  } else {
    RaiseException(0xE0000002, 0, 0, 0);
  }
}
int main(void) {
  __try {
    test(1);
    test(0);
  } __except (say(3, 1)) {
    put(4);
  }
  return 0;
}
