// The last statement of a guarded section is guarded.
// Microsoft C reference, "try-except statement (C)".
int *nowhere;
int main(void) {
  __try {
    put(1);
    *nowhere = 1;
  } __except (1) {
    put(2);
  }
  return 0;
}
