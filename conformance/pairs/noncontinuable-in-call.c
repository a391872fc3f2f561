// A noncontinuable exception, in a routine.
void part1(void) {
  put(1);
  RaiseException(0xE0000001, 1, 0, 0);
  put(2);
}
void part0(void) {
  part1();
  put(3);
}
int main(void) {
  __try {
    part0();
    put(4);
  } __except (1) {
    put(GetExceptionCode() % 256);
  }
  put(5);
  return 0;
}
