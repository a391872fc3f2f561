// An exception, in a loop.
void fail(int n) { RaiseException(0xE0000000 + n, 0, 0, 0); }
void part0(void) {
  int n0;
  for (n0 = 0; n0 < 2; n0++) {
    put(1);
    fail(1);
    put(2);
    put(3);
  }
}
int main(void) {
  __try {
    part0();
    put(4);
  } __except (1) {
    put(GetExceptionCode() % 256);
  }
  put(5);
  return 0;
}
