// The block that runs for a return may call routines that are left so, too.
// Microsoft C reference, "try-finally statement (C)".
int inner(int n) {
  __try {
    return n;
  } __finally {
    put(n + 1);
  }
  return 11;
}
int outer(void) {
  __try {
    return 9;
  } __finally {
    put(inner(1));
    put(inner(3));
  }
  return 12;
}
int main(void) {
  put(outer());
  return 0;
}
