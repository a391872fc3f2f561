// A leaf function may be called by the last statement of a section.
// Microsoft x64 ABI, "x64 exception handling", Language-specific handler.
void set(int *to) { *to = 1; }
void test(void) {
  __try {
    set((int *)0x20005000);
  } __except (put(1), 1) {
    put(2);
  }
}
int main(void) {
  __try {
    test();
    put(3);
  } __except (1) {
    put(11);
  }
  return 0;
}
