// A continue, in an __except block, in a section whose __finally block raises.
void fail(int n) { RaiseException(0xE0000000 + n, 0, 0, 0); }
void part0(void) {
  int i;
  for (i = 0; i < 2; i++) {
    __try {
      __try {
        fail(4);
      } __except (1) {
        put(1);
        put(2);
        continue;
      }
    } __finally {
      put(3);
      if (AbnormalTermination()) fail(3);
    }
    put(4);
    put(5);
  }
}
int main(void) {
  __try {
    part0();
    put(6);
  } __except (1) {
    put(GetExceptionCode() % 256);
  }
  put(7);
  return 0;
}
