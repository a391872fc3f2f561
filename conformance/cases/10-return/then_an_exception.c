// Frames that were left by a return through a block are gone: the caller's sections are asked.
// Microsoft C reference, "try-finally statement (C)".
int test(void) {
  __try {
    return 1;
  } __finally {
    put(1);
  }
  return 11;
}
int main(void) {
  __try {
    test();
    RaiseException(0xE0000001, 0, 0, 0);
  } __except (1) {
    put(2);
  }
  return 0;
}
