// A division by zero, in a section whose filter takes one code, in a section whose filter goes
// on, in a section whose filter goes on.
int zero;
void part0(void) {
  __try {
    __try {
      __try {
        put(1);
        put(7 / zero);
        put(2);
      } __except (GetExceptionCode() == 0xE0000003) {
        put(3);
      }
      put(4);
    } __except (put(5), 0) {
      put(6);
    }
  } __except (put(7), 0) {
    put(8);
  }
}
int main(void) {
  __try {
    part0();
    put(9);
  } __except (1) {
    put(GetExceptionCode() % 256);
  }
  put(10);
  return 0;
}
