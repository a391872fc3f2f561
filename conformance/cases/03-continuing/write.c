// A write is made again where the exception occurred, in memory that the filter opened.
// Microsoft C reference, "try-except statement (C)".
int open(void) {
  put(1);
  protect((void *)0x20001000, 2);
  return EXCEPTION_CONTINUE_EXECUTION;
}
int main(void) {
  int *page = (int *)0x20001000;
  __try {
    *page = 7;
    put(*page);
  } __except (open()) {
    put(11);
  }
  put(*page + 1);
  return 0;
}
