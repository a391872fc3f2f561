// A read is made again where the exception occurred, and finds memory that the filter opened.
// Microsoft C reference, "try-except statement (C)".
int open(void) {
  put(1);
  protect((void *)0x20000000, 2);
  return EXCEPTION_CONTINUE_EXECUTION;
}
int main(void) {
  int *page = (int *)0x20000000;
  __try {
    put(*page);
    put(2);
  } __except (open()) {
    put(11);
  }
  return 0;
}
