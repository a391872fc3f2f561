// __leave causes no unwinding: the section terminates normally.
// Microsoft C reference, "try-finally statement (C)", The __leave keyword.
int main(void) {
  __try {
    __leave;
  } __finally {
    put(AbnormalTermination());
  }
  return 0;
}
