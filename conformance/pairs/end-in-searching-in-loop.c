// A normal end, in a section whose filter goes on, in a loop.
void part0(void) {
  int n0;
  for (n0 = 0; n0 < 2; n0++) {
    __try {
      put(1);
    } __except (put(2), 0) {
      put(3);
    }
    put(4);
  }
}
int main(void) {
  __try {
    part0();
    put(5);
  } __except (1) {
    put(GetExceptionCode() % 256);
  }
  put(6);
  return 0;
}
