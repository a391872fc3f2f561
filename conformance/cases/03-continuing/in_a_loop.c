// A loop whose exceptions are continued makes all of its rounds.
// Microsoft C reference, "try-except statement (C)".
int asked;
int count(void) {
  asked = asked + 1;
  return -1;
}
int main(void) {
  int i;
  __try {
    for (i = 0; i < 20; i++) RaiseException(0xE0000001, 0, 0, 0);
    put(i);
  } __except (count()) {
    put(11);
  }
  put(asked);
  return 0;
}
