// A refused access, in a section whose filter goes on, in a loop, in a section whose __finally
// block raises.
void fail(int n) { RaiseException(0xE0000000 + n, 0, 0, 0); }
void part0(void) {
  __try {
    int n1;
    for (n1 = 0; n1 < 2; n1++) {
      __try {
        put(1);
        *(int *)0x20000000 = 1;
        put(2);
      } __except (put(3), 0) {
        put(4);
      }
      put(5);
    }
  } __finally {
    put(6);
    if (AbnormalTermination()) fail(3);
  }
  put(7);
}
int main(void) {
  __try {
    part0();
    put(8);
  } __except (1) {
    put(GetExceptionCode() % 256);
  }
  put(9);
  return 0;
}
