// A continue, in an __except block.
void fail(int n) { RaiseException(0xE0000000 + n, 0, 0, 0); }
void part0(void) {
  int i;
  for (i = 0; i < 2; i++) {
    __try {
      fail(4);
    } __except (1) {
      put(1);
      put(2);
      continue;
    }
    put(3);
  }
}
int main(void) {
  __try {
    part0();
    put(4);
  } __except (1) {
    put(GetExceptionCode() % 256);
  }
  put(5);
  return 0;
}
