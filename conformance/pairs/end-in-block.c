// A normal end, in an __except block.
void fail(int n) { RaiseException(0xE0000000 + n, 0, 0, 0); }
void part0(void) {
  __try {
    fail(4);
  } __except (1) {
    put(1);
    put(2);
  }
}
int main(void) {
  __try {
    part0();
    put(3);
  } __except (1) {
    put(GetExceptionCode() % 256);
  }
  put(4);
  return 0;
}
