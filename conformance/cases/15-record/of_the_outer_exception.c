// After an exception that was handled in a filter its record is the one of before.
// Windows API reference, "GetExceptionInformation macro".
int *nowhere;
int careful(void) {
  __try {
    RaiseException(0xE0000002, 0, 0, 0);
  } __except (put(GetExceptionInformation()->ExceptionRecord->NumberParameters), 1) {
    put(1);
  }
  return 1;
}
int main(void) {
  __try {
    put(*nowhere);
  } __except (careful(), put(GetExceptionInformation()->ExceptionRecord->NumberParameters), 1) {
    put(3);
  }
  return 0;
}
