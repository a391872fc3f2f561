// A noncontinuable exception may be accepted as any other.
// Windows API reference, "RaiseException function".
int say(int n, int answer) { put(n); return answer; }
int main(void) {
  __try {
    __try {
      RaiseException(0xE0000001, 1, 0, 0);
      put(11);
    } __except (say(1, 0)) {
      put(12);
    }
  } __except (say(2, 1)) {
    put(GetExceptionCode() == 0xE0000001);
  }
  return 0;
}
