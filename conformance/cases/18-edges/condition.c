// A condition, and each part of an expression, is guarded as the statement that it stands in.
// Microsoft C reference, "try-except statement (C)".
int zero;
int main(void) {
  int n = 0;
  __try {
    if (n == 0 && 5 / zero == 1) put(11);
    put(12);
  } __except (1) {
    put(1);
  }
  __try {
    while (n < 2) {
      n = n + 1;
      put(10 / (2 - n));
    }
  } __except (1) {
    put(n);
  }
  return 0;
}
