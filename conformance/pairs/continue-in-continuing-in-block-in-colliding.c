// A continue, in a section whose filter mends and continues, in an __except block, in a section
// whose __finally block raises.
void fail(int n) { RaiseException(0xE0000000 + n, 0, 0, 0); }
int mending(unsigned code) {
  put(code % 256);
  protect((void *)0x20000000, 2);
  return code == 0xC0000025 || code == 0xC0000094 ? 1 : -1;
}
void part0(void) {
  int i;
  for (i = 0; i < 2; i++) {
    __try {
      __try {
        fail(4);
      } __except (1) {
        put(1);
        __try {
          put(2);
          continue;
        } __except (mending(GetExceptionCode())) {
          put(3);
        }
      }
    } __finally {
      put(4);
      if (AbnormalTermination()) fail(3);
    }
    put(5);
    put(6);
  }
}
int main(void) {
  __try {
    part0();
    put(7);
  } __except (1) {
    put(GetExceptionCode() % 256);
  }
  put(8);
  return 0;
}
