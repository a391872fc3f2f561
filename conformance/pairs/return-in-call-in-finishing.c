// A return, in a routine, in a section with a __finally block.
void part1(void) {
  put(1);
  return;
}
void part0(void) {
  __try {
    part1();
    put(2);
  } __finally {
    put(3 + AbnormalTermination());
  }
  put(5);
}
int main(void) {
  __try {
    part0();
    put(6);
  } __except (1) {
    put(GetExceptionCode() % 256);
  }
  put(7);
  return 0;
}
