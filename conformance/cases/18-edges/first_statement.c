// The first statement of a guarded section is guarded.
// Microsoft C reference, "try-except statement (C)".
int *nowhere;
int main(void) {
  __try {
    *nowhere = 1;
    put(11);
  } __except (1) {
    put(1);
  }
  return 0;
}
