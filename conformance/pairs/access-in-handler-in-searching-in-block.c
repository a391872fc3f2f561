// A refused access, in a routine of a __finally block, in a section whose filter goes on, in an
// __except block.
void fail(int n) { RaiseException(0xE0000000 + n, 0, 0, 0); }
void part1(void) {
  put(2);
  *(int *)0x20000000 = 1;
  put(3);
}
void part0(void) {
  __try {
    fail(4);
  } __except (1) {
    put(1);
    __try {
      __try {
        fail(5);
      } __finally {
        part1();
        put(4);
      }
    } __except (put(5), 0) {
      put(6);
    }
  }
}
int main(void) {
  __try {
    part0();
    put(7);
  } __except (1) {
    put(GetExceptionCode() % 256);
  }
  put(8);
  return 0;
}
