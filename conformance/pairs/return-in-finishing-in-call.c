// A return, in a section with a __finally block, in a routine.
void part1(void) {
  __try {
    put(1);
    return;
  } __finally {
    put(2 + AbnormalTermination());
  }
  put(4);
}
void part0(void) {
  part1();
  put(5);
}
int main(void) {
  __try {
    part0();
    put(6);
  } __except (1) {
    put(GetExceptionCode() % 256);
  }
  put(7);
  return 0;
}
