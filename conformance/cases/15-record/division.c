// A division by zero has no parameters.
// Windows API reference, "EXCEPTION_RECORD structure".
int zero;
int main(void) {
  __try {
    put(1 / zero);
  } __except (put(GetExceptionInformation()->ExceptionRecord->NumberParameters), 1) {
    put(1);
  }
  return 0;
}
