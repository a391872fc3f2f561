// What isn't evaluated raises nothing.
// Microsoft C reference, "try-except statement (C)".
int zero;
int *nowhere;
int main(void) {
  __try {
    put(zero != 0 && 5 / zero == 1);
    put(zero == 0 || *nowhere == 1);
    put(zero ? *nowhere : 3);
  } __except (1) {
    put(11);
  }
  return 0;
}
