// A normal end, in a section whose __finally block raises.
void fail(int n) { RaiseException(0xE0000000 + n, 0, 0, 0); }
void part0(void) {
  __try {
    put(1);
  } __finally {
    put(2);
    if (AbnormalTermination()) fail(3);
  }
  put(3);
}
int main(void) {
  __try {
    part0();
    put(4);
  } __except (1) {
    put(GetExceptionCode() % 256);
  }
  put(5);
  return 0;
}
