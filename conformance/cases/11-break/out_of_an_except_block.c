// A break out of an __except block leaves the loop.
// Microsoft C reference, "try-except statement (C)".
int main(void) {
  int i;
  for (i = 0; i < 5; i++) {
    __try {
      if (i == 2) RaiseException(0xE0000001, 0, 0, 0);
      put(i);
    } __except (1) {
      break;
    }
  }
  put(i + 10);
  return 0;
}
