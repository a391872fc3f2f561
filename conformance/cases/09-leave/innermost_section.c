// __leave ends the innermost guarded section that it stands in, and no other.
// Microsoft C reference, "try-finally statement (C)", The __leave keyword.
int main(void) {
  __try {
    __try {
      __leave;
      put(11);
    } __finally {
      put(1);
    }
    put(2);
    __leave;
    put(12);
  } __finally {
    put(3);
  }
  put(4);
  return 0;
}
