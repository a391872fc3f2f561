// A leaf function goes on with its own values where its access is continued.
// Microsoft x64 ABI, "x64 exception handling", Unwind procedure.
int open(void) {
  protect((void *)0x20006000, 2);
  return -1;
}
int add(int a, int *b, int c) { return a + *b + c; }
int main(void) {
  __try {
    put(add(10, (int *)0x20006000, 5));
  } __except (open()) {
    put(11);
  }
  return 0;
}
