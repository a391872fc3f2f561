// A write to memory that may only be read is refused as a write.
// Windows API reference, "EXCEPTION_RECORD structure".
int main(void) {
  int *page = (int *)0x20004000;
  protect(page, 1);
  __try {
    put(page[2]);
    page[2] = 1;
  } __except (put(GetExceptionInformation()->ExceptionRecord->ExceptionInformation[0]), 1) {
    put(page[2]);
  }
  return 0;
}
