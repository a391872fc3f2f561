// The unwinding runs the __finally blocks of the filter's routines, then those of the section.
// Microsoft C reference, "try-finally statement (C)".
int asked;
int bad(void) {
  asked = asked + 1;
  if (asked == 2) return 0;
  __try {
    RaiseException(0xE0000002, 0, 0, 0);
  } __finally {
    put(AbnormalTermination());
  }
  return 0;
}
void callee(void) {
  __try {
    RaiseException(0xE0000001, 0, 0, 0);
  } __finally {
    put(2);
  }
}
int main(void) {
  __try {
    __try {
      callee();
    } __except (bad()) {
      put(11);
    }
  } __except (GetExceptionCode() == 0xE0000002) {
    put(3);
  }
  return 0;
}
