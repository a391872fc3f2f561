// __leave as the last statement of a section does what the section's end does.
// Microsoft C reference, "try-finally statement (C)", The __leave keyword.
int main(void) {
  __try {
    __try {
      put(1);
      __leave;
    } __except (1) {
      put(11);
    }
    put(2);
    __leave;
  } __finally {
    put(AbnormalTermination());
  }
  return 0;
}
