// An exception in a routine that a filter calls may be handled there; the filter then answers.
// Microsoft C reference, "try-except statement (C)".
int careful(void) {
  __try {
    RaiseException(0xE0000002, 0, 0, 0);
  } __except (1) {
    put(1);
  }
  return 1;
}
int main(void) {
  __try {
    RaiseException(0xE0000001, 0, 0, 0);
  } __except (careful()) {
    put(GetExceptionCode() == 0xE0000001);
  }
  put(2);
  return 0;
}
