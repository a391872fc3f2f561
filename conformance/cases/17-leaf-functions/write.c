// A write in a leaf function is searched for from its caller on.
// Microsoft x64 ABI, "x64 exception handling", Unwind procedure.
void set(int *to, int value) { *to = value; }
int main(void) {
  int x = 3;
  __try {
    set((int *)0x20005000, 7);
    put(11);
  } __except (put(GetExceptionInformation()->ExceptionRecord->ExceptionInformation[0]), 1) {
    put(x);
  }
  return 0;
}
