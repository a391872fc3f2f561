// An exception in a __finally block that runs at its section's end is outside of that section.
// Microsoft C reference, "try-finally statement (C)".
int say(int n, int answer) { put(n); return answer; }
int main(void) {
  __try {
    __try {
      put(1);
    } __finally {
      put(2);
      RaiseException(0xE0000001, 0, 0, 0);
      put(11);
    }
    put(12);
  } __except (say(3, 1)) {
    put(4);
  }
  return 0;
}
