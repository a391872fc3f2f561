// A frame may hold an odd number of bytes; what stands beside them is kept.
// Microsoft x64 ABI, "x64 exception handling", Unwind procedure.
void fail(void) { RaiseException(0xE0000001, 0, 0, 0); }
int main(void) {
  char before = 1;
  char text[13];
  char after = 2;
  int i;
  for (i = 0; i < 13; i++) text[i] = i + 65;
  __try {
    text[12] = 90;
    fail();
  } __except (put(before + after), 1) {
    put(text[0]);
    put(text[11]);
    put(text[12]);
  }
  return 0;
}
