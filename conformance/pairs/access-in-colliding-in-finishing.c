// A refused access, in a section whose __finally block raises, in a section with a __finally
// block.
void fail(int n) { RaiseException(0xE0000000 + n, 0, 0, 0); }
void part0(void) {
  __try {
    __try {
      put(1);
      *(int *)0x20000000 = 1;
      put(2);
    } __finally {
      put(3);
      if (AbnormalTermination()) fail(3);
    }
    put(4);
  } __finally {
    put(5 + AbnormalTermination());
  }
  put(7);
}
int main(void) {
  __try {
    part0();
    put(8);
  } __except (1) {
    put(GetExceptionCode() % 256);
  }
  put(9);
  return 0;
}
