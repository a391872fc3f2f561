// A continue, in a routine, in a loop.
void part1(void) {
  int i;
  for (i = 0; i < 2; i++) {
    put(1);
    continue;
    put(2);
  }
}
void part0(void) {
  int n0;
  for (n0 = 0; n0 < 2; n0++) {
    part1();
    put(3);
    put(4);
  }
}
int main(void) {
  __try {
    part0();
    put(5);
  } __except (1) {
    put(GetExceptionCode() % 256);
  }
  put(6);
  return 0;
}
