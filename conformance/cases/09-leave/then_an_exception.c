// After __leave the section is over: an exception that follows is none of its own.
// Microsoft C reference, "try-finally statement (C)", The __leave keyword.
int main(void) {
  __try {
    __try {
      __leave;
    } __except (put(11), 1) {
      put(12);
    }
    RaiseException(0xE0000001, 0, 0, 0);
  } __except (put(1), 1) {
    put(2);
  }
  return 0;
}
