// A return, in a loop, in a section whose __finally block raises.
void fail(int n) { RaiseException(0xE0000000 + n, 0, 0, 0); }
void part0(void) {
  __try {
    int n1;
    for (n1 = 0; n1 < 2; n1++) {
      put(1);
      return;
      put(2);
    }
  } __finally {
    put(3);
    if (AbnormalTermination()) fail(3);
  }
  put(4);
}
int main(void) {
  __try {
    part0();
    put(5);
  } __except (1) {
    put(GetExceptionCode() % 256);
  }
  put(6);
  return 0;
}
