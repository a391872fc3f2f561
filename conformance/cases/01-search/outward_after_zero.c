// A filter that answers EXCEPTION_CONTINUE_SEARCH leaves the search to the containing try-except.
// Microsoft C reference, "try-except statement (C)".
int say(int n, int answer) { put(n); return answer; }
int main(void) {
  __try {
    __try {
      RaiseException(0xE0000001, 0, 0, 0);
    } __except (say(1, EXCEPTION_CONTINUE_SEARCH)) {
      put(2);
    }
    put(3);
  } __except (say(4, EXCEPTION_EXECUTE_HANDLER)) {
    put(5);
  }
  put(6);
  return 0;
}
