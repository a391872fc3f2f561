// A division by zero, in a routine.
int zero;
void part1(void) {
  put(1);
  put(7 / zero);
  put(2);
}
void part0(void) {
  part1();
  put(3);
}
int main(void) {
  __try {
    part0();
    put(4);
  } __except (1) {
    put(GetExceptionCode() % 256);
  }
  put(5);
  return 0;
}
