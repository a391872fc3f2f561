// After an acceptance the rest of the guarded section, and of what it called, isn't executed.
// Microsoft C reference, "try-except statement (C)".
void deep(int n) {
  if (n) deep(n - 1);
  else RaiseException(0xE0000001, 0, 0, 0);
  put(10 + n);
}
int main(void) {
  __try {
    put(1);
    deep(2);
    put(20);
  } __except (1) {
    put(2);
  }
  put(3);
  return 0;
}
