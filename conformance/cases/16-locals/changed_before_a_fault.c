// The same where the exception is a fault of the section itself.
// Microsoft C reference, "try-except statement (C)".
int zero;
int main(void) {
  int x = 1;
  __try {
    x = 2;
    put(7 / zero);
    x = 3;
  } __except (1) {
    put(x);
  }
  return 0;
}
