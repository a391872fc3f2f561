// A loop may try again until its section comes through.
// Microsoft C reference, "try-except statement (C)".
int attempts;
void work(void) {
  attempts = attempts + 1;
  if (attempts < 4) RaiseException(0xE0000001, 0, 0, 0);
}
int main(void) {
  int done = 0;
  do {
    __try {
      work();
      done = 1;
    } __except (1) {
      put(attempts);
    }
  } while (!done);
  put(attempts);
  return 0;
}
