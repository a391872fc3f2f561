// A continue, in a loop, in a routine.
void part1(void) {
  int n1;
  for (n1 = 0; n1 < 2; n1++) {
    put(1);
    continue;
    put(2);
  }
}
void part0(void) {
  part1();
  put(3);
}
int main(void) {
  __try {
    part0();
    put(4);
  } __except (1) {
    put(GetExceptionCode() % 256);
  }
  put(5);
  return 0;
}
