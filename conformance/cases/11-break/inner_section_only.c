// A break leaves the sections inside of the loop, and none outside of it.
// Microsoft C reference, "try-finally statement (C)".
int main(void) {
  __try {
    do {
      __try {
        break;
      } __finally {
        put(AbnormalTermination());
      }
    } while (1);
    put(2);
  } __finally {
    put(AbnormalTermination());
  }
  return 0;
}
