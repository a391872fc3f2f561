// A refused access, in a loop, in a section whose filter raises once.
int asked;
void fail(int n) { RaiseException(0xE0000000 + n, 0, 0, 0); }
int raising(void) {
  asked = asked + 1;
  if (asked == 1) fail(2);
  return 0;
}
void part0(void) {
  __try {
    int n1;
    for (n1 = 0; n1 < 2; n1++) {
      put(1);
      *(int *)0x20000000 = 1;
      put(2);
      put(3);
    }
  } __except (raising()) {
    put(4);
  }
}
int main(void) {
  __try {
    part0();
    put(5);
  } __except (1) {
    put(GetExceptionCode() % 256);
  }
  put(6);
  return 0;
}
