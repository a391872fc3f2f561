// An exception that is raised without arguments has no parameters.
// Windows API reference, "RaiseException function".
int main(void) {
  __try {
    RaiseException(0xE0000001, 0, 0, 0);
  } __except (put(GetExceptionInformation()->ExceptionRecord->NumberParameters), 1) {
    put(1);
  }
  return 0;
}
