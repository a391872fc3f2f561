// A call as the last statement is guarded, though it would return to behind the section.
// Microsoft x64 ABI, "x64 exception handling", Language-specific handler.
void fail(void) { RaiseException(0xE0000001, 0, 0, 0); }
int main(void) {
  __try {
    put(1);
    fail();
  } __except (1) {
    put(2);
  }
  return 0;
}
