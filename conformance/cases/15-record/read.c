// The first parameter of a refused access is 0 for a read.
// Windows API reference, "EXCEPTION_RECORD structure".
int *nowhere;
int main(void) {
  __try {
    put(*nowhere);
  } __except (put(GetExceptionInformation()->ExceptionRecord->ExceptionInformation[0]), 1) {
    put(1);
  }
  return 0;
}
