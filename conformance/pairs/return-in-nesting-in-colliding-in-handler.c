// A return, in a section whose filter raises once, in a section whose __finally block raises, in
// a routine of a __finally block.
int asked;
void fail(int n) { RaiseException(0xE0000000 + n, 0, 0, 0); }
int raising(void) {
  asked = asked + 1;
  if (asked == 1) fail(2);
  return 0;
}
void part1(void) {
  __try {
    __try {
      put(1);
      return;
    } __except (raising()) {
      put(2);
    }
  } __finally {
    put(3);
    if (AbnormalTermination()) fail(3);
  }
  put(4);
}
void part0(void) {
  __try {
    fail(5);
  } __finally {
    part1();
    put(5);
  }
}
int main(void) {
  __try {
    part0();
    put(6);
  } __except (1) {
    put(GetExceptionCode() % 256);
  }
  put(7);
  return 0;
}
