// The guarded section is the compound statement after __try; its __except block isn't guarded by
// it.
// Microsoft C reference, "try-except statement (C)".
int say(int n, int answer) { put(n); return answer; }
int main(void) {
  __try {
    __try {
      RaiseException(0xE0000001, 0, 0, 0);
    } __except (say(1, 1)) {
      put(2);
      RaiseException(0xE0000002, 0, 0, 0);
      put(11);
    }
  } __except (say(3, 1)) {
    put(GetExceptionCode() == 0xE0000002);
  }
  return 0;
}
