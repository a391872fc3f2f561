// A refused access, in a section whose filter accepts, in a routine, in a section whose filter
// raises once.
int asked;
void fail(int n) { RaiseException(0xE0000000 + n, 0, 0, 0); }
int raising(void) {
  asked = asked + 1;
  if (asked == 1) fail(2);
  return 0;
}
void part1(void) {
  __try {
    put(1);
    *(int *)0x20000000 = 1;
    put(2);
  } __except (put(3), 1) {
    put(4);
  }
}
void part0(void) {
  __try {
    part1();
    put(5);
  } __except (raising()) {
    put(6);
  }
}
int main(void) {
  __try {
    part0();
    put(7);
  } __except (1) {
    put(GetExceptionCode() % 256);
  }
  put(8);
  return 0;
}
