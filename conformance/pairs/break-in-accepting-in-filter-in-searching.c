// A break, in a section whose filter accepts, in a routine of a filter, in a section whose filter
// goes on.
void fail(int n) { RaiseException(0xE0000000 + n, 0, 0, 0); }
int begun1;
int part1(void) {
  begun1 = begun1 + 1;
  if (begun1 > 1) return 1;
  int i;
  for (i = 0; i < 2; i++) {
    __try {
      put(1);
      break;
    } __except (put(2), 1) {
      put(3);
    }
    put(4);
  }
  return 1;
}
void part0(void) {
  __try {
    __try {
      fail(6);
    } __except (part1()) {
      put(5);
    }
  } __except (put(6), 0) {
    put(7);
  }
}
int main(void) {
  __try {
    part0();
    put(8);
  } __except (1) {
    put(GetExceptionCode() % 256);
  }
  put(9);
  return 0;
}
