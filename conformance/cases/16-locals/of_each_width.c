// Locals of each width are kept.
// Microsoft x64 ABI, "x64 exception handling", Unwind procedure.
void fail(void) { RaiseException(0xE0000001, 0, 0, 0); }
int main(void) {
  char a = -1;
  unsigned char b = 254;
  short c = -300;
  unsigned d = 4000000000u;
  long long e = -5000000000;
  __try {
    a = a - 1;
    e = e - 1;
    fail();
  } __except (put(a), put(b), 1) {
    put(c);
    put(d);
    put(e);
  }
  return 0;
}
