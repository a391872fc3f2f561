// The newer exception is searched for outward from its __finally block: filters inside aren't
// asked.
// Microsoft x64 ABI, "x64 exception handling", Language-specific handler.
int say(int n, int answer) { put(n); return answer; }
void inner(void) {
  __try {
    RaiseException(0xE0000001, 0, 0, 0);
  } __except (say(1, 0)) {
    put(11);
  }
}
int main(void) {
  __try {
    __try {
      inner();
    } __finally {
      put(3);
      RaiseException(0xE0000002, 0, 0, 0);
    }
  } __except (say(2, 1)) {
    put(4);
  }
  return 0;
}
