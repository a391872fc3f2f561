// An exception in a __finally block that runs for a return takes the place of the return.
// Microsoft C reference, "try-finally statement (C)".
int early(void) {
  __try {
    return 11;
  } __finally {
    put(AbnormalTermination());
    RaiseException(0xE0000001, 0, 0, 0);
  }
  return 12;
}
int main(void) {
  __try {
    put(early());
  } __except (1) {
    put(2);
  }
  return 0;
}
