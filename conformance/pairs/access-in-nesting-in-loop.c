// A refused access, in a section whose filter raises once, in a loop.
int asked;
void fail(int n) { RaiseException(0xE0000000 + n, 0, 0, 0); }
int raising(void) {
  asked = asked + 1;
  if (asked == 1) fail(2);
  return 0;
}
void part0(void) {
  int n0;
  for (n0 = 0; n0 < 2; n0++) {
    __try {
      put(1);
      *(int *)0x20000000 = 1;
      put(2);
    } __except (raising()) {
      put(3);
    }
    put(4);
  }
}
int main(void) {
  __try {
    part0();
    put(5);
  } __except (1) {
    put(GetExceptionCode() % 256);
  }
  put(6);
  return 0;
}
