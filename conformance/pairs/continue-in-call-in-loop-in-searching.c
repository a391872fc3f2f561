// A continue, in a routine, in a loop, in a section whose filter goes on.
void part1(void) {
  int i;
  for (i = 0; i < 2; i++) {
    put(1);
    continue;
    put(2);
  }
}
void part0(void) {
  __try {
    int n1;
    for (n1 = 0; n1 < 2; n1++) {
      part1();
      put(3);
      put(4);
    }
  } __except (put(5), 0) {
    put(6);
  }
}
int main(void) {
  __try {
    part0();
    put(7);
  } __except (1) {
    put(GetExceptionCode() % 256);
  }
  put(8);
  return 0;
}
