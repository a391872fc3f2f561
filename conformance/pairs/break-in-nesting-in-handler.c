// A break, in a section whose filter raises once, in a routine of a __finally block.
int asked;
void fail(int n) { RaiseException(0xE0000000 + n, 0, 0, 0); }
int raising(void) {
  asked = asked + 1;
  if (asked == 1) fail(2);
  return 0;
}
void part1(void) {
  int i;
  for (i = 0; i < 2; i++) {
    __try {
      put(1);
      break;
    } __except (raising()) {
      put(2);
    }
    put(3);
  }
}
void part0(void) {
  __try {
    fail(5);
  } __finally {
    part1();
    put(4);
  }
}
int main(void) {
  __try {
    part0();
    put(5);
  } __except (1) {
    put(GetExceptionCode() % 256);
  }
  put(6);
  return 0;
}
