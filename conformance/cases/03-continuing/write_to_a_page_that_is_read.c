// A page that may be read alone refuses a write, which is made again once the filter allows it.
// Microsoft C reference, "try-except statement (C)".
int open(void) {
  put(1);
  protect((void *)0x20002000, 2);
  return EXCEPTION_CONTINUE_EXECUTION;
}
int main(void) {
  int *page = (int *)0x20002000;
  protect(page, 1);
  __try {
    put(*page);
    page[1] = 5;
    put(page[1]);
  } __except (open()) {
    put(11);
  }
  return 0;
}
