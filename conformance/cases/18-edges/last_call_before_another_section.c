// The same where the next guarded section begins straight behind it.
// Microsoft x64 ABI, "x64 exception handling", Language-specific handler.
int say(int n, int answer) { put(n); return answer; }
void fail(int n) { RaiseException(0xE0000000 + n, 0, 0, 0); }
int main(void) {
  __try {
    fail(1);
  } __except (say(1, 1)) {
  }
  __try {
    fail(2);
  } __except (say(2, 1)) {
  }
  __try {
    fail(3);
  } __except (say(3, 1)) {
  }
  return 0;
}
