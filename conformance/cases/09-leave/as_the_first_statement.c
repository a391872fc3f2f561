// A section may be left before anything of it was executed.
// Microsoft C reference, "try-finally statement (C)", The __leave keyword.
int main(void) {
  __try {
    __leave;
  } __finally {
    put(1);
  }
  __try {
    __leave;
  } __except (1) {
    put(11);
  }
  put(2);
  return 0;
}
