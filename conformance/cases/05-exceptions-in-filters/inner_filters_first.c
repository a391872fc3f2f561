// A second exception asks the filters between the first one's point and the running one, too.
// Microsoft x64 ABI, "x64 exception handling", Language-specific handler.
int running;
int outer(void) {
  put(2);
  if (running) return 0;
  running = 1;
  RaiseException(0xE0000002, 0, 0, 0);
  return 0;
}
void callee(void) {
  __try {
    RaiseException(0xE0000001, 0, 0, 0);
  } __except (put(1), 0) {
    put(11);
  }
}
int main(void) {
  __try {
    __try {
      callee();
    } __except (outer()) {
      put(12);
    }
  } __except (put(3), 1) {
    put(GetExceptionCode() == 0xE0000002);
  }
  return 0;
}
