// A fault of a leaf function that a filter calls is searched for from the filter on.
// Microsoft x64 ABI, "x64 exception handling", Unwind procedure.
int asked;
int get(int *from) { return *from; }
int decide(void) {
  asked = asked + 1;
  if (asked > 1) return 1;
  return get((int *)0x20005000);
}
int main(void) {
  __try {
    RaiseException(0xE0000001, 0, 0, 0);
  } __except (decide()) {
    put(asked);
    put(GetExceptionCode() == 0xC0000005);
  }
  return 0;
}
