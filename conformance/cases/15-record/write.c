// The first parameter of a refused access is 1 for a write.
// Windows API reference, "EXCEPTION_RECORD structure".
int *nowhere;
int main(void) {
  __try {
    *nowhere = 5;
  } __except (put(GetExceptionInformation()->ExceptionRecord->ExceptionInformation[0]), 1) {
    put(2);
  }
  return 0;
}
