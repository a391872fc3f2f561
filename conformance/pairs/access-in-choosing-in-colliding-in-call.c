// A refused access, in a section whose filter takes one code, in a section whose __finally block
// raises, in a routine.
void fail(int n) { RaiseException(0xE0000000 + n, 0, 0, 0); }
void part1(void) {
  __try {
    __try {
      put(1);
      *(int *)0x20000000 = 1;
      put(2);
    } __except (GetExceptionCode() == 0xE0000003) {
      put(3);
    }
    put(4);
  } __finally {
    put(5);
    if (AbnormalTermination()) fail(3);
  }
  put(6);
}
void part0(void) {
  part1();
  put(7);
}
int main(void) {
  __try {
    part0();
    put(8);
  } __except (1) {
    put(GetExceptionCode() % 256);
  }
  put(9);
  return 0;
}
