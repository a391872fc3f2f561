// A __finally block that has run at its section's end doesn't run again for a later exception.
// Microsoft C reference, "try-finally statement (C)".
int main(void) {
  __try {
    __try {
      put(1);
    } __finally {
      put(2);
    }
    RaiseException(0xE0000001, 0, 0, 0);
  } __except (1) {
    put(3);
  }
  return 0;
}
