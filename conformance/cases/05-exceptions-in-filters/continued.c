// An exception in a filter may be continued; the filter goes on and answers for the first one.
// Microsoft C reference, "try-except statement (C)".
int asked;
int decide(unsigned code) {
  asked = asked + 1;
  put(asked);
  if (code == 0xE0000002) return -1;
  RaiseException(0xE0000002, 0, 0, 0);
  put(3);
  return 1;
}
int main(void) {
  __try {
    RaiseException(0xE0000001, 0, 0, 0);
    put(11);
  } __except (decide(GetExceptionCode())) {
    put(GetExceptionCode() == 0xE0000001);
  }
  return 0;
}
