// A break, in a section whose filter accepts, in a section whose filter takes one code, in a
// routine of a __finally block.
void fail(int n) { RaiseException(0xE0000000 + n, 0, 0, 0); }
void part1(void) {
  int i;
  for (i = 0; i < 2; i++) {
    __try {
      __try {
        put(1);
        break;
      } __except (put(2), 1) {
        put(3);
      }
    } __except (GetExceptionCode() == 0xE0000003) {
      put(4);
    }
    put(5);
    put(6);
  }
}
void part0(void) {
  __try {
    fail(5);
  } __finally {
    part1();
    put(7);
  }
}
int main(void) {
  __try {
    part0();
    put(8);
  } __except (1) {
    put(GetExceptionCode() % 256);
  }
  put(9);
  return 0;
}
