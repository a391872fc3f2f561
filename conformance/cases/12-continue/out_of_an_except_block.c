// A continue out of an __except block goes to the loop's next round.
// Microsoft C reference, "try-except statement (C)".
int main(void) {
  int i;
  for (i = 0; i < 3; i++) {
    __try {
      RaiseException(0xE0000000 + i, 0, 0, 0);
    } __except (1) {
      if (GetExceptionCode() == 0xE0000001) continue;
      put(i);
    }
    put(10 + i);
  }
  return 0;
}
