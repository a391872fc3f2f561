// A division by zero, in a loop, in a section with a __finally block, in a section whose filter
// takes one code.
int zero;
void part0(void) {
  __try {
    __try {
      int n2;
      for (n2 = 0; n2 < 2; n2++) {
        put(1);
        put(7 / zero);
        put(2);
        put(3);
      }
    } __finally {
      put(4 + AbnormalTermination());
    }
    put(6);
  } __except (GetExceptionCode() == 0xE0000003) {
    put(7);
  }
  put(8);
}
int main(void) {
  __try {
    part0();
    put(9);
  } __except (1) {
    put(GetExceptionCode() % 256);
  }
  put(10);
  return 0;
}
