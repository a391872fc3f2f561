// A __leave, in a routine, in a routine, in a section whose filter accepts.
void part2(void) {
  __try {
    put(1);
    __leave;
  } __finally {
    put(2);
  }
}
void part1(void) {
  part2();
  put(3);
}
void part0(void) {
  __try {
    part1();
    put(4);
  } __except (put(5), 1) {
    put(6);
  }
}
int main(void) {
  __try {
    part0();
    put(7);
  } __except (1) {
    put(GetExceptionCode() % 256);
  }
  put(8);
  return 0;
}
