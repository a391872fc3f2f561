// An exception, in a section whose filter accepts, in a section whose __finally block raises, in
// a section whose __finally block raises.
void fail(int n) { RaiseException(0xE0000000 + n, 0, 0, 0); }
void part0(void) {
  __try {
    __try {
      __try {
        put(1);
        fail(1);
        put(2);
      } __except (put(3), 1) {
        put(4);
      }
    } __finally {
      put(5);
      if (AbnormalTermination()) fail(3);
    }
    put(6);
  } __finally {
    put(7);
    if (AbnormalTermination()) fail(3);
  }
  put(8);
}
int main(void) {
  __try {
    part0();
    put(9);
  } __except (1) {
    put(GetExceptionCode() % 256);
  }
  put(10);
  return 0;
}
