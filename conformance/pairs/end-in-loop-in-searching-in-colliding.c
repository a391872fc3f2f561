// A normal end, in a loop, in a section whose filter goes on, in a section whose __finally block
// raises.
void fail(int n) { RaiseException(0xE0000000 + n, 0, 0, 0); }
void part0(void) {
  __try {
    __try {
      int n2;
      for (n2 = 0; n2 < 2; n2++) {
        put(1);
        put(2);
      }
    } __except (put(3), 0) {
      put(4);
    }
  } __finally {
    put(5);
    if (AbnormalTermination()) fail(3);
  }
  put(6);
}
int main(void) {
  __try {
    part0();
    put(7);
  } __except (1) {
    put(GetExceptionCode() % 256);
  }
  put(8);
  return 0;
}
