// A break, in a routine, in a section whose __finally block raises, in a section whose filter
// takes one code.
void fail(int n) { RaiseException(0xE0000000 + n, 0, 0, 0); }
void part1(void) {
  int i;
  for (i = 0; i < 2; i++) {
    put(1);
    break;
    put(2);
  }
}
void part0(void) {
  __try {
    __try {
      part1();
      put(3);
    } __finally {
      put(4);
      if (AbnormalTermination()) fail(3);
    }
    put(5);
  } __except (GetExceptionCode() == 0xE0000003) {
    put(6);
  }
  put(7);
}
int main(void) {
  __try {
    part0();
    put(8);
  } __except (1) {
    put(GetExceptionCode() % 256);
  }
  put(9);
  return 0;
}
