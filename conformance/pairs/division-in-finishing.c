// A division by zero, in a section with a __finally block.
int zero;
void part0(void) {
  __try {
    put(1);
    put(7 / zero);
    put(2);
  } __finally {
    put(3 + AbnormalTermination());
  }
  put(5);
}
int main(void) {
  __try {
    part0();
    put(6);
  } __except (1) {
    put(GetExceptionCode() % 256);
  }
  put(7);
  return 0;
}
