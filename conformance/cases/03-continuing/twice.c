// Each exception of a section is asked about by itself: continuing one says nothing of the next.
// Microsoft C reference, "try-except statement (C)".
int asked;
int first_continues(void) {
  asked = asked + 1;
  put(asked);
  return asked == 1 ? -1 : 1;
}
int main(void) {
  __try {
    RaiseException(0xE0000001, 0, 0, 0);
    put(10);
    RaiseException(0xE0000002, 0, 0, 0);
    put(11);
  } __except (first_continues()) {
    put(GetExceptionCode() == 0xE0000002);
  }
  return 0;
}
