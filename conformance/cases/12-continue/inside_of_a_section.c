// A continue of a loop that is wholly inside of a section doesn't leave that section.
// Microsoft C reference, "try-finally statement (C)".
int main(void) {
  int i;
  __try {
    for (i = 0; i < 3; i++) {
      if (i == 1) continue;
      put(i);
    }
  } __finally {
    put(AbnormalTermination());
  }
  return 0;
}
