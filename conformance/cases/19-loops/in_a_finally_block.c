// A loop of guarded sections in a __finally block is part of the unwinding.
// Microsoft C reference, "try-finally statement (C)".
void fail(int n) { RaiseException(0xE0000000 + n, 0, 0, 0); }
int main(void) {
  int i;
  __try {
    __try {
      fail(9);
    } __finally {
      for (i = 0; i < 3; i++) {
        __try {
          fail(i);
        } __except (1) {
          put(i);
        }
      }
    }
  } __except (1) {
    put(GetExceptionCode() == 0xE0000009);
  }
  return 0;
}
