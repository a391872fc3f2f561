// A break, in a section whose filter mends and continues, in a routine, in a loop.
int mending(unsigned code) {
  put(code % 256);
  protect((void *)0x20000000, 2);
  return code == 0xC0000025 || code == 0xC0000094 ? 1 : -1;
}
void part1(void) {
  int i;
  for (i = 0; i < 2; i++) {
    __try {
      put(1);
      break;
    } __except (mending(GetExceptionCode())) {
      put(2);
    }
    put(3);
  }
}
void part0(void) {
  int n0;
  for (n0 = 0; n0 < 2; n0++) {
    part1();
    put(4);
    put(5);
  }
}
int main(void) {
  __try {
    part0();
    put(6);
  } __except (1) {
    put(GetExceptionCode() % 256);
  }
  put(7);
  return 0;
}
