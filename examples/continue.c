// A filter that answers below 0 has the refused access made again, at the same address.
int *p = 0x20000000;
int mend(void) {
  p = 0;
  protect((void *)0x20000000, 2);
  return EXCEPTION_CONTINUE_EXECUTION;
}
int main(void) {
  __try {
    put(*p);
  } __except (mend()) {
    put(9);
  }
  return 0;
}
