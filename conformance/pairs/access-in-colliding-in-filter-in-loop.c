// A refused access, in a section whose __finally block raises, in a routine of a filter, in a
// loop.
void fail(int n) { RaiseException(0xE0000000 + n, 0, 0, 0); }
int begun1;
int part1(void) {
  begun1 = begun1 + 1;
  if (begun1 > 1) return 1;
  __try {
    put(1);
    *(int *)0x20000000 = 1;
    put(2);
  } __finally {
    put(3);
    if (AbnormalTermination()) fail(3);
  }
  put(4);
  return 1;
}
void part0(void) {
  int n0;
  for (n0 = 0; n0 < 2; n0++) {
    __try {
      fail(6);
    } __except (part1()) {
      put(5);
    }
    put(6);
  }
}
int main(void) {
  __try {
    part0();
    put(7);
  } __except (1) {
    put(GetExceptionCode() % 256);
  }
  put(8);
  return 0;
}
