// The filter is an expression of the function that it stands in, and reads its locals.
// Microsoft C reference, "try-except statement (C)".
void fail(void) { RaiseException(0xE0000001, 0, 0, 0); }
void test(int wanted) {
  int accept = 0;
  __try {
    accept = wanted;
    fail();
  } __except (accept) {
    put(accept);
  }
  put(2);
}
int main(void) {
  __try {
    test(1);
    test(0);
  } __except (1) {
    put(3);
  }
  return 0;
}
