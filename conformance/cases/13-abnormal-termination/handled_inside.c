// A section in which an exception was handled ends normally.
// Windows API reference, "AbnormalTermination macro".
int main(void) {
  __try {
    __try {
      RaiseException(0xE0000001, 0, 0, 0);
    } __except (1) {
      put(1);
    }
  } __finally {
    put(AbnormalTermination());
  }
  return 0;
}
