// A noncontinuable exception, in a routine, in a section whose filter takes one code.
void part1(void) {
  put(1);
  RaiseException(0xE0000001, 1, 0, 0);
  put(2);
}
void part0(void) {
  __try {
    part1();
    put(3);
  } __except (GetExceptionCode() == 0xE0000003) {
    put(4);
  }
  put(5);
}
int main(void) {
  __try {
    part0();
    put(6);
  } __except (1) {
    put(GetExceptionCode() % 256);
  }
  put(7);
  return 0;
}
