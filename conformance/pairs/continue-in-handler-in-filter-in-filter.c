// A continue, in a routine of a __finally block, in a routine of a filter, in a routine of a
// filter.
void fail(int n) { RaiseException(0xE0000000 + n, 0, 0, 0); }
int begun0;
int begun1;
void part3(void) {
  int i;
  for (i = 0; i < 2; i++) {
    put(1);
    continue;
    put(2);
  }
}
int part2(void) {
  begun1 = begun1 + 1;
  if (begun1 > 1) return 1;
  __try {
    fail(5);
  } __finally {
    part3();
    put(3);
  }
  return 1;
}
int part1(void) {
  begun0 = begun0 + 1;
  if (begun0 > 1) return 1;
  __try {
    fail(6);
  } __except (part2()) {
    put(4);
  }
  return 1;
}
void part0(void) {
  __try {
    fail(6);
  } __except (part1()) {
    put(5);
  }
}
int main(void) {
  __try {
    part0();
    put(6);
  } __except (1) {
    put(GetExceptionCode() % 256);
  }
  put(7);
  return 0;
}
