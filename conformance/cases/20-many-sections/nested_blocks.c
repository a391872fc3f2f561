// Of nested __finally blocks all inside of the accepting statement run, from the inside out.
// Microsoft x64 ABI, "x64 exception handling", Language-specific handler.
int wanted;
void test(void) {
  __try { __try { __try { __try { __try { __try {
    RaiseException(0xE0000001, 0, 0, 0);
  } __finally { put(1); }
  } __except (wanted == 2) { put(2); }
  } __finally { put(3); }
  } __except (wanted == 4) { put(4); }
  } __finally { put(5); }
  } __except (wanted == 6) { put(6); }
}
int main(void) {
  for (wanted = 2; wanted < 7; wanted = wanted + 2) test();
  return 0;
}
