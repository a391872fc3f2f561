// A routine that an __except block calls is outside of the guarded section of that statement.
// Microsoft C reference, "try-except statement (C)".
int say(int n, int answer) { put(n); return answer; }
void fail(int n) { RaiseException(0xE0000000 + n, 0, 0, 0); }
int main(void) {
  __try {
    __try {
      fail(1);
    } __except (say(1, 1)) {
      fail(2);
    }
  } __except (say(2, 1)) {
    put(GetExceptionCode() == 0xE0000002);
  }
  return 0;
}
