// The termination handler is executed before the flow of control moves out of the section.
// Microsoft C reference, "try-finally statement (C)".
int test(void) {
  __try {
    return 2;
  } __finally {
    put(1);
  }
  return 11;
}
int main(void) {
  put(test());
  return 0;
}
