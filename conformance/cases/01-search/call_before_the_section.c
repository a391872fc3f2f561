// A call that stands straight before a __try is outside of its guarded section.
// Microsoft x64 ABI, "x64 exception handling", Language-specific handler.
int say(int n, int answer) { put(n); return answer; }
void fail(void) { RaiseException(0xE0000001, 0, 0, 0); }
void test(void) {
  fail();
  __try {
    put(11);
  } __except (say(12, 1)) {
    put(13);
  }
}
int main(void) {
  __try {
    test();
  } __except (say(1, 1)) {
    put(2);
  }
  return 0;
}
