// A refused access, in a section whose filter mends and continues, in a routine.
int mending(unsigned code) {
  put(code % 256);
  protect((void *)0x20000000, 2);
  return code == 0xC0000025 || code == 0xC0000094 ? 1 : -1;
}
void part1(void) {
  __try {
    put(1);
    *(int *)0x20000000 = 1;
    put(2);
  } __except (mending(GetExceptionCode())) {
    put(3);
  }
}
void part0(void) {
  part1();
  put(4);
}
int main(void) {
  __try {
    part0();
    put(5);
  } __except (1) {
    put(GetExceptionCode() % 256);
  }
  put(6);
  return 0;
}
