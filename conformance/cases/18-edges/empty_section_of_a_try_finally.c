// The end of an empty guarded section is reached at once: its block runs, normally.
// Microsoft C reference, "try-finally statement (C)".
int main(void) {
  __try {
  } __finally {
    put(AbnormalTermination());
  }
  put(1);
  return 0;
}
