// The same for a break; the handler is inside the loop, which then goes on.
// Microsoft C reference, "try-finally statement (C)".
int main(void) {
  int i;
  for (i = 0; i < 3; i++) {
    __try {
      __try {
        if (i == 1) break;
      } __finally {
        if (AbnormalTermination()) RaiseException(0xE0000001, 0, 0, 0);
        put(i);
      }
    } __except (1) {
      put(10 + i);
    }
  }
  put(i);
  return 0;
}
