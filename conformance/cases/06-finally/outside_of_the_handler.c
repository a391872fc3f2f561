// A __finally statement around the one that handles isn't left: its block runs at its own end.
// Microsoft C reference, "try-finally statement (C)".
int main(void) {
  __try {
    __try {
      RaiseException(0xE0000001, 0, 0, 0);
    } __except (1) {
      put(1);
    }
    put(2);
  } __finally {
    put(AbnormalTermination());
  }
  put(3);
  return 0;
}
