// A normal end, in a routine of a filter, in a section whose __finally block raises, in a section
// with a __finally block.
void fail(int n) { RaiseException(0xE0000000 + n, 0, 0, 0); }
int begun2;
int part1(void) {
  begun2 = begun2 + 1;
  if (begun2 > 1) return 1;
  put(1);
  return 1;
}
void part0(void) {
  __try {
    __try {
      __try {
        fail(6);
      } __except (part1()) {
        put(2);
      }
    } __finally {
      put(3);
      if (AbnormalTermination()) fail(3);
    }
    put(4);
  } __finally {
    put(5 + AbnormalTermination());
  }
  put(7);
}
int main(void) {
  __try {
    part0();
    put(8);
  } __except (1) {
    put(GetExceptionCode() % 256);
  }
  put(9);
  return 0;
}
