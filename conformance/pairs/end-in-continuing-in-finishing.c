// A normal end, in a section whose filter mends and continues, in a section with a __finally
// block.
int mending(unsigned code) {
  put(code % 256);
  protect((void *)0x20000000, 2);
  return code == 0xC0000025 || code == 0xC0000094 ? 1 : -1;
}
void part0(void) {
  __try {
    __try {
      put(1);
    } __except (mending(GetExceptionCode())) {
      put(2);
    }
  } __finally {
    put(3 + AbnormalTermination());
  }
  put(5);
}
int main(void) {
  __try {
    part0();
    put(6);
  } __except (1) {
    put(GetExceptionCode() % 256);
  }
  put(7);
  return 0;
}
