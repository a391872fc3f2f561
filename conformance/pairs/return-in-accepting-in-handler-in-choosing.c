// A return, in a section whose filter accepts, in a routine of a __finally block, in a section
// whose filter takes one code.
void fail(int n) { RaiseException(0xE0000000 + n, 0, 0, 0); }
void part1(void) {
  __try {
    put(1);
    return;
  } __except (put(2), 1) {
    put(3);
  }
}
void part0(void) {
  __try {
    __try {
      fail(5);
    } __finally {
      part1();
      put(4);
    }
  } __except (GetExceptionCode() == 0xE0000003) {
    put(5);
  }
  put(6);
}
int main(void) {
  __try {
    part0();
    put(7);
  } __except (1) {
    put(GetExceptionCode() % 256);
  }
  put(8);
  return 0;
}
