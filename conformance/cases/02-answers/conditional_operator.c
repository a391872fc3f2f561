// A filter may be a conditional expression; its value decides.
// Microsoft C reference, "try-except statement (C)".
void test(int accept) {
  __try {
    __try {
      RaiseException(0xE0000001, 0, 0, 0);
    } __except (accept ? EXCEPTION_EXECUTE_HANDLER : EXCEPTION_CONTINUE_SEARCH) {
      put(1);
    }
    put(2);
  } __except (EXCEPTION_EXECUTE_HANDLER) {
    put(3);
  }
}
int main(void) {
  test(1);
  test(0);
  return 0;
}
