// A filter may be a comma expression; the value of its last operand decides.
// Microsoft C reference, "try-except statement (C)".
int main(void) {
  __try {
    __try {
      RaiseException(0xE0000001, 0, 0, 0);
    } __except (put(1), put(2), EXCEPTION_CONTINUE_SEARCH) {
      put(11);
    }
  } __except (put(3), EXCEPTION_EXECUTE_HANDLER) {
    put(4);
  }
  return 0;
}
