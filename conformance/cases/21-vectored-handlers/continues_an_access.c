// A vectored handler may mend an access outside of every section, which is then made again.
// Windows API reference, "AddVectoredExceptionHandler function".
int mend(unsigned code, unsigned flags) {
  put(code == 0xC0000005);
  protect((void *)0x20007000, 2);
  return -1;
}
int main(void) {
  int *page = (int *)0x20007000;
  AddVectoredExceptionHandler(1, mend);
  *page = 6;
  put(*page);
  return 0;
}
