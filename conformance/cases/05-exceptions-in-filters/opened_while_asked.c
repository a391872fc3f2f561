// An access in a filter that is continued goes on in the filter.
// Microsoft C reference, "try-except statement (C)".
int open(void) {
  put(2);
  protect((void *)0x20000000, 2);
  return -1;
}
int look(void) {
  int found = 9;
  __try {
    put(1);
    found = *(int *)0x20000000;
  } __except (open()) {
    put(11);
  }
  put(found);
  return 1;
}
int main(void) {
  __try {
    RaiseException(0xE0000001, 0, 0, 0);
  } __except (look()) {
    put(3);
  }
  return 0;
}
