// After an empty __except block execution goes on after the statement.
// Microsoft C reference, "try-except statement (C)".
int main(void) {
  __try {
    put(1);
    RaiseException(0xE0000001, 0, 0, 0);
    put(11);
  } __except (1) {
  }
  put(2);
  return 0;
}
