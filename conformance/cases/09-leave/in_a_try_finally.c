// __leave jumps to the end of the guarded section; the __finally block is what runs next.
// Microsoft C reference, "try-finally statement (C)", The __leave keyword.
int main(void) {
  __try {
    put(1);
    __leave;
    put(11);
  } __finally {
    put(2);
  }
  put(3);
  return 0;
}
