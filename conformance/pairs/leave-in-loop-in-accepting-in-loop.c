// A __leave, in a loop, in a section whose filter accepts, in a loop.
void part0(void) {
  int n0;
  for (n0 = 0; n0 < 2; n0++) {
    __try {
      int n2;
      for (n2 = 0; n2 < 2; n2++) {
        put(1);
        __leave;
        put(2);
      }
    } __except (put(3), 1) {
      put(4);
    }
    put(5);
  }
}
int main(void) {
  __try {
    part0();
    put(6);
  } __except (1) {
    put(GetExceptionCode() % 256);
  }
  put(7);
  return 0;
}
