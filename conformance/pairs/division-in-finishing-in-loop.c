// A division by zero, in a section with a __finally block, in a loop.
int zero;
void part0(void) {
  int n0;
  for (n0 = 0; n0 < 2; n0++) {
    __try {
      put(1);
      put(7 / zero);
      put(2);
    } __finally {
      put(3 + AbnormalTermination());
    }
    put(5);
    put(6);
  }
}
int main(void) {
  __try {
    part0();
    put(7);
  } __except (1) {
    put(GetExceptionCode() % 256);
  }
  put(8);
  return 0;
}
