// A return, in a section with a __finally block, in a section with a __finally block, in a loop.
void part0(void) {
  int n0;
  for (n0 = 0; n0 < 2; n0++) {
    __try {
      __try {
        put(1);
        return;
      } __finally {
        put(2 + AbnormalTermination());
      }
      put(4);
    } __finally {
      put(5 + AbnormalTermination());
    }
    put(7);
    put(8);
  }
}
int main(void) {
  __try {
    part0();
    put(9);
  } __except (1) {
    put(GetExceptionCode() % 256);
  }
  put(10);
  return 0;
}
