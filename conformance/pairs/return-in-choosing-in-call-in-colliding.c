// A return, in a section whose filter takes one code, in a routine, in a section whose __finally
// block raises.
void fail(int n) { RaiseException(0xE0000000 + n, 0, 0, 0); }
void part1(void) {
  __try {
    put(1);
    return;
  } __except (GetExceptionCode() == 0xE0000003) {
    put(2);
  }
  put(3);
}
void part0(void) {
  __try {
    part1();
    put(4);
  } __finally {
    put(5);
    if (AbnormalTermination()) fail(3);
  }
  put(6);
}
int main(void) {
  __try {
    part0();
    put(7);
  } __except (1) {
    put(GetExceptionCode() % 256);
  }
  put(8);
  return 0;
}
