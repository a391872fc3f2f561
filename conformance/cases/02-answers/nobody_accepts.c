// Where all filters answer EXCEPTION_CONTINUE_SEARCH the process ends, with the code as its status.
// Windows API reference, "RaiseException function".
int say(int n, int answer) { put(n); return answer; }
int main(void) {
  __try {
    __try {
      RaiseException(0xE0000007, 0, 0, 0);
    } __except (say(1, 0)) {
      put(11);
    }
  } __except (say(2, 0)) {
    put(12);
  }
  put(13);
  return 0;
}
