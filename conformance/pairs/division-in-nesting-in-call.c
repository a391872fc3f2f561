// A division by zero, in a section whose filter raises once, in a routine.
int asked;
void fail(int n) { RaiseException(0xE0000000 + n, 0, 0, 0); }
int zero;
int raising(void) {
  asked = asked + 1;
  if (asked == 1) fail(2);
  return 0;
}
void part1(void) {
  __try {
    put(1);
    put(7 / zero);
    put(2);
  } __except (raising()) {
    put(3);
  }
}
void part0(void) {
  part1();
  put(4);
}
int main(void) {
  __try {
    part0();
    put(5);
  } __except (1) {
    put(GetExceptionCode() % 256);
  }
  put(6);
  return 0;
}
