// A refused access has two parameters.
// Windows API reference, "EXCEPTION_RECORD structure".
int *nowhere;
int main(void) {
  __try {
    put(*nowhere);
  } __except (put(GetExceptionInformation()->ExceptionRecord->NumberParameters), 1) {
    put(1);
  }
  return 0;
}
