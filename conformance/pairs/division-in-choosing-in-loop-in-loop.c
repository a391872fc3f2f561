// A division by zero, in a section whose filter takes one code, in a loop, in a loop.
int zero;
void part0(void) {
  int n0;
  for (n0 = 0; n0 < 2; n0++) {
    int n1;
    for (n1 = 0; n1 < 2; n1++) {
      __try {
        put(1);
        put(7 / zero);
        put(2);
      } __except (GetExceptionCode() == 0xE0000003) {
        put(3);
      }
      put(4);
      put(5);
    }
    put(6);
  }
}
int main(void) {
  __try {
    part0();
    put(7);
  } __except (1) {
    put(GetExceptionCode() % 256);
  }
  put(8);
  return 0;
}
