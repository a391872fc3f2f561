// A call as the first statement of a guarded section is guarded.
// Microsoft C reference, "try-except statement (C)".
void fail(void) { RaiseException(0xE0000001, 0, 0, 0); }
int main(void) {
  __try {
    fail();
    put(11);
  } __except (1) {
    put(1);
  }
  return 0;
}
