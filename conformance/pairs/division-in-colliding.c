// A division by zero, in a section whose __finally block raises.
void fail(int n) { RaiseException(0xE0000000 + n, 0, 0, 0); }
int zero;
void part0(void) {
  __try {
    put(1);
    put(7 / zero);
    put(2);
  } __finally {
    put(3);
    if (AbnormalTermination()) fail(3);
  }
  put(4);
}
int main(void) {
  __try {
    part0();
    put(5);
  } __except (1) {
    put(GetExceptionCode() % 256);
  }
  put(6);
  return 0;
}
