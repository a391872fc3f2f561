// A noncontinuable exception, in a routine, in a section whose filter takes one code, in a
// section whose __finally block raises.
void fail(int n) { RaiseException(0xE0000000 + n, 0, 0, 0); }
void part1(void) {
  put(1);
  RaiseException(0xE0000001, 1, 0, 0);
  put(2);
}
void part0(void) {
  __try {
    __try {
      part1();
      put(3);
    } __except (GetExceptionCode() == 0xE0000003) {
      put(4);
    }
    put(5);
  } __finally {
    put(6);
    if (AbnormalTermination()) fail(3);
  }
  put(7);
}
int main(void) {
  __try {
    part0();
    put(8);
  } __except (1) {
    put(GetExceptionCode() % 256);
  }
  put(9);
  return 0;
}
