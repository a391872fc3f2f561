// A filter that is asked about the second exception finds the second one's record.
// Windows API reference, "GetExceptionInformation macro".
int *nowhere;
int asked;
int bad(unsigned count) {
  asked = asked + 1;
  put(count);
  if (asked == 1) put(*nowhere);
  return 1;
}
int main(void) {
  __try {
    RaiseException(0xE0000001, 0, 0, 0);
  } __except (bad(GetExceptionInformation()->ExceptionRecord->NumberParameters)) {
    put(GetExceptionCode() == 0xC0000005);
  }
  return 0;
}
