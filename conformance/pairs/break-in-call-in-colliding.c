// A break, in a routine, in a section whose __finally block raises.
void fail(int n) { RaiseException(0xE0000000 + n, 0, 0, 0); }
void part1(void) {
  int i;
  for (i = 0; i < 2; i++) {
    put(1);
    break;
    put(2);
  }
}
void part0(void) {
  __try {
    part1();
    put(3);
  } __finally {
    put(4);
    if (AbnormalTermination()) fail(3);
  }
  put(5);
}
int main(void) {
  __try {
    part0();
    put(6);
  } __except (1) {
    put(GetExceptionCode() % 256);
  }
  put(7);
  return 0;
}
