// A break or continue out of a __try runs its __finally block first.
int main(void) {
  int i;
  for (i = 0; i < 3; ++i) {
    __try {
      if (i == 1) continue;
      if (i == 2) break;
      put(i);
    } __finally {
      put(10 + i);
    }
  }
  put(i);
  return 0;
}
