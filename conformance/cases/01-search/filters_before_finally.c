// All filters up to the one that accepts are asked before the first __finally block runs.
// Microsoft C reference, "try-finally statement (C)".
int say(int n, int answer) { put(n); return answer; }
void inner(void) {
  __try {
    RaiseException(0xE0000001, 0, 0, 0);
  } __finally {
    put(10);
  }
}
void outer(void) {
  __try {
    __try {
      inner();
    } __finally {
      put(11);
    }
  } __except (say(1, 0)) {
    put(12);
  }
}
int main(void) {
  __try {
    outer();
  } __except (say(2, 1)) {
    put(13);
  }
  return 0;
}
