// A normal end, in a section whose __finally block raises, in a section whose filter takes one
// code.
void fail(int n) { RaiseException(0xE0000000 + n, 0, 0, 0); }
void part0(void) {
  __try {
    __try {
      put(1);
    } __finally {
      put(2);
      if (AbnormalTermination()) fail(3);
    }
    put(3);
  } __except (GetExceptionCode() == 0xE0000003) {
    put(4);
  }
  put(5);
}
int main(void) {
  __try {
    part0();
    put(6);
  } __except (1) {
    put(GetExceptionCode() % 256);
  }
  put(7);
  return 0;
}
