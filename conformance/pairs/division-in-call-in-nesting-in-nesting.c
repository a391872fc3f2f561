// A division by zero, in a routine, in a section whose filter raises once, in a section whose
// filter raises once.
int asked;
void fail(int n) { RaiseException(0xE0000000 + n, 0, 0, 0); }
int zero;
int raising(void) {
  asked = asked + 1;
  if (asked == 1) fail(2);
  return 0;
}
void part1(void) {
  put(1);
  put(7 / zero);
  put(2);
}
void part0(void) {
  __try {
    __try {
      part1();
      put(3);
    } __except (raising()) {
      put(4);
    }
  } __except (raising()) {
    put(5);
  }
}
int main(void) {
  __try {
    part0();
    put(6);
  } __except (1) {
    put(GetExceptionCode() % 256);
  }
  put(7);
  return 0;
}
