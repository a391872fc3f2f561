// At the end of the guarded section the __finally block runs, and execution goes on after it.
// Microsoft C reference, "try-finally statement (C)".
int main(void) {
  put(1);
  __try {
    put(2);
  } __finally {
    put(3);
  }
  put(4);
  return 0;
}
