// A filter that compares the code accepts its own exceptions and leaves all others.
// Microsoft C reference, "try-except statement (C)".
void test(int n) {
  __try {
    __try {
      RaiseException(0xE0000000 + n, 0, 0, 0);
    } __except (GetExceptionCode() == 0xE0000001) {
      put(1);
    }
  } __except (GetExceptionCode() == 0xE0000002) {
    put(2);
  }
}
int main(void) {
  test(2);
  test(1);
  return 0;
}
