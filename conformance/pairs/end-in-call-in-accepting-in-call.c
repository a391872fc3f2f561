// A normal end, in a routine, in a section whose filter accepts, in a routine.
void part2(void) {
  put(1);
}
void part1(void) {
  __try {
    part2();
    put(2);
  } __except (put(3), 1) {
    put(4);
  }
}
void part0(void) {
  part1();
  put(5);
}
int main(void) {
  __try {
    part0();
    put(6);
  } __except (1) {
    put(GetExceptionCode() % 256);
  }
  put(7);
  return 0;
}
