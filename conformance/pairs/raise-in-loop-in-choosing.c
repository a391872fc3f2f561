// An exception, in a loop, in a section whose filter takes one code.
void fail(int n) { RaiseException(0xE0000000 + n, 0, 0, 0); }
void part0(void) {
  __try {
    int n1;
    for (n1 = 0; n1 < 2; n1++) {
      put(1);
      fail(1);
      put(2);
      put(3);
    }
  } __except (GetExceptionCode() == 0xE0000003) {
    put(4);
  }
  put(5);
}
int main(void) {
  __try {
    part0();
    put(6);
  } __except (1) {
    put(GetExceptionCode() % 256);
  }
  put(7);
  return 0;
}
