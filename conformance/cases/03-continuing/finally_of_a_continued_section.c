// Continuing unwinds nothing: the __finally block runs later, at the section's normal end.
// Microsoft C reference, "try-finally statement (C)".
int say(int n, int answer) { put(n); return answer; }
int main(void) {
  __try {
    __try {
      RaiseException(0xE0000001, 0, 0, 0);
      put(2);
    } __finally {
      put(AbnormalTermination());
    }
  } __except (say(1, -1)) {
    put(11);
  }
  put(3);
  return 0;
}
