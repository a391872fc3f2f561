// Of eight nested sections the first that accepts decides how far the unwinding goes.
// Microsoft x64 ABI, "x64 exception handling", Language-specific handler.
int wanted;
int decide(int n) { return n == wanted; }
void test(void) {
  __try { __try { __try { __try { __try { __try {
    RaiseException(0xE0000001, 0, 0, 0);
  } __except (decide(1)) { put(1); } put(11);
  } __except (decide(2)) { put(2); } put(12);
  } __except (decide(3)) { put(3); } put(13);
  } __except (decide(4)) { put(4); } put(14);
  } __except (decide(5)) { put(5); } put(15);
  } __except (decide(6)) { put(6); } put(16);
}
int main(void) {
  for (wanted = 6; wanted > 3; wanted--) test();
  return 0;
}
