// A normal end, in a section whose filter accepts, in a routine.
void part1(void) {
  __try {
    put(1);
  } __except (put(2), 1) {
    put(3);
  }
}
void part0(void) {
  part1();
  put(4);
}
int main(void) {
  __try {
    part0();
    put(5);
  } __except (1) {
    put(GetExceptionCode() % 256);
  }
  put(6);
  return 0;
}
