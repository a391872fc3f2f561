// A filter may call a routine that has guarded sections of its own.
// Microsoft C reference, "try-except statement (C)".
int careful(int n) {
  __try {
    put(n);
  } __finally {
    put(n + 1);
  }
  return n == 3;
}
int main(void) {
  __try {
    __try {
      RaiseException(0xE0000001, 0, 0, 0);
    } __except (careful(1)) {
      put(11);
    }
  } __except (careful(3)) {
    put(5);
  }
  return 0;
}
