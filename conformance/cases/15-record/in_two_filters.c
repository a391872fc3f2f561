// Each filter that is asked about an exception finds the same record.
// Windows API reference, "GetExceptionInformation macro".
int *nowhere;
int seen(int answer, unsigned long long kind, unsigned count) {
  put(kind * 10 + count);
  return answer;
}
int main(void) {
  __try {
    __try {
      *nowhere = 1;
    } __except (seen(0, GetExceptionInformation()->ExceptionRecord->ExceptionInformation[0],
                     GetExceptionInformation()->ExceptionRecord->NumberParameters)) {
      put(11);
    }
  } __except (seen(1, GetExceptionInformation()->ExceptionRecord->ExceptionInformation[0],
                   GetExceptionInformation()->ExceptionRecord->NumberParameters)) {
    put(1);
  }
  return 0;
}
