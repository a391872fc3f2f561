// A division by zero, in a section whose filter goes on, in a routine, in a section with a
// __finally block.
int zero;
void part1(void) {
  __try {
    put(1);
    put(7 / zero);
    put(2);
  } __except (put(3), 0) {
    put(4);
  }
}
void part0(void) {
  __try {
    part1();
    put(5);
  } __finally {
    put(6 + AbnormalTermination());
  }
  put(8);
}
int main(void) {
  __try {
    part0();
    put(9);
  } __except (1) {
    put(GetExceptionCode() % 256);
  }
  put(10);
  return 0;
}
