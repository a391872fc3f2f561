// A division by zero, in a section whose filter takes one code, in a routine of a __finally
// block.
void fail(int n) { RaiseException(0xE0000000 + n, 0, 0, 0); }
int zero;
void part1(void) {
  __try {
    put(1);
    put(7 / zero);
    put(2);
  } __except (GetExceptionCode() == 0xE0000003) {
    put(3);
  }
  put(4);
}
void part0(void) {
  __try {
    fail(5);
  } __finally {
    part1();
    put(5);
  }
}
int main(void) {
  __try {
    part0();
    put(6);
  } __except (1) {
    put(GetExceptionCode() % 256);
  }
  put(7);
  return 0;
}
