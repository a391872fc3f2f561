// The condition of a loop inside of a section is guarded in each round.
// Microsoft C reference, "try-except statement (C)".
int zero = 3;
int main(void) {
  int n = 0;
  __try {
    while (12 / zero > 0) {
      zero = zero - 1;
      n = n + 1;
    }
    put(11);
  } __except (1) {
    put(n);
  }
  return 0;
}
