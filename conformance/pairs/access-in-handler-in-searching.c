// A refused access, in a routine of a __finally block, in a section whose filter goes on.
void fail(int n) { RaiseException(0xE0000000 + n, 0, 0, 0); }
void part1(void) {
  put(1);
  *(int *)0x20000000 = 1;
  put(2);
}
void part0(void) {
  __try {
    __try {
      fail(5);
    } __finally {
      part1();
      put(3);
    }
  } __except (put(4), 0) {
    put(5);
  }
}
int main(void) {
  __try {
    part0();
    put(6);
  } __except (1) {
    put(GetExceptionCode() % 256);
  }
  put(7);
  return 0;
}
