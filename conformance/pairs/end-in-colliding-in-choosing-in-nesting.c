// A normal end, in a section whose __finally block raises, in a section whose filter takes one
// code, in a section whose filter raises once.
int asked;
void fail(int n) { RaiseException(0xE0000000 + n, 0, 0, 0); }
int raising(void) {
  asked = asked + 1;
  if (asked == 1) fail(2);
  return 0;
}
void part0(void) {
  __try {
    __try {
      __try {
        put(1);
      } __finally {
        put(2);
        if (AbnormalTermination()) fail(3);
      }
      put(3);
    } __except (GetExceptionCode() == 0xE0000003) {
      put(4);
    }
    put(5);
  } __except (raising()) {
    put(6);
  }
}
int main(void) {
  __try {
    part0();
    put(7);
  } __except (1) {
    put(GetExceptionCode() % 256);
  }
  put(8);
  return 0;
}
