// A break of a loop that is wholly inside of a guarded section doesn't leave that section.
// Microsoft C reference, "try-finally statement (C)".
int main(void) {
  int i;
  __try {
    for (i = 0; i < 5; i++) {
      if (i == 3) break;
    }
    put(i);
  } __finally {
    put(AbnormalTermination());
  }
  return 0;
}
