// A __leave, in a routine, in a routine.
void part2(void) {
  __try {
    put(1);
    __leave;
  } __finally {
    put(2);
  }
}
void part1(void) {
  part2();
  put(3);
}
void part0(void) {
  part1();
  put(4);
}
int main(void) {
  __try {
    part0();
    put(5);
  } __except (1) {
    put(GetExceptionCode() % 256);
  }
  put(6);
  return 0;
}
