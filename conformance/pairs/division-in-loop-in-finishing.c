// A division by zero, in a loop, in a section with a __finally block.
int zero;
void part0(void) {
  __try {
    int n1;
    for (n1 = 0; n1 < 2; n1++) {
      put(1);
      put(7 / zero);
      put(2);
      put(3);
    }
  } __finally {
    put(4 + AbnormalTermination());
  }
  put(6);
}
int main(void) {
  __try {
    part0();
    put(7);
  } __except (1) {
    put(GetExceptionCode() % 256);
  }
  put(8);
  return 0;
}
