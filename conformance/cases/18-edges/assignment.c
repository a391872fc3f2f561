// A value that raises isn't assigned.
// Microsoft C reference, "try-except statement (C)".
int zero;
int x = 3;
int main(void) {
  __try {
    x = 5 / zero;
  } __except (1) {
    put(x);
  }
  return 0;
}
