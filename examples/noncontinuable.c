// Continuing a noncontinuable exception raises C0000025 at the same place.
int f(unsigned code) {
  if (code == 0xC0000025) return EXCEPTION_EXECUTE_HANDLER;
  return EXCEPTION_CONTINUE_EXECUTION;
}
int main(void) {
  __try {
    RaiseException(0xE0000003, 1, 0, 0);
  } __except (f(GetExceptionCode())) {
    put(3);
  }
  return 0;
}
