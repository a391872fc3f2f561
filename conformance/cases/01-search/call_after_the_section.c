// A call that stands straight after the statement is outside of its guarded section.
// Microsoft x64 ABI, "x64 exception handling", Language-specific handler.
int say(int n, int answer) { put(n); return answer; }
void fail(void) { RaiseException(0xE0000001, 0, 0, 0); }
void test(void) {
  __try {
    put(1);
  } __except (say(12, 1)) {
    put(13);
  }
  fail();
}
int main(void) {
  __try {
    test();
  } __except (say(2, 1)) {
    put(3);
  }
  return 0;
}
