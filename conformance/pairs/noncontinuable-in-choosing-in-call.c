// A noncontinuable exception, in a section whose filter takes one code, in a routine.
void part1(void) {
  __try {
    put(1);
    RaiseException(0xE0000001, 1, 0, 0);
    put(2);
  } __except (GetExceptionCode() == 0xE0000003) {
    put(3);
  }
  put(4);
}
void part0(void) {
  part1();
  put(5);
}
int main(void) {
  __try {
    part0();
    put(6);
  } __except (1) {
    put(GetExceptionCode() % 256);
  }
  put(7);
  return 0;
}
