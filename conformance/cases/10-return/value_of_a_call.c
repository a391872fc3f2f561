// The value may be that of a routine that is left through a __finally block itself.
// Microsoft C reference, "try-finally statement (C)".
int inner(int n) {
  __try {
    return n * 2;
  } __finally {
    put(n);
  }
  return 11;
}
int outer(int n) {
  __try {
    return inner(n) + 1;
  } __finally {
    put(n + 1);
  }
  return 12;
}
int main(void) {
  put(outer(5));
  return 0;
}
