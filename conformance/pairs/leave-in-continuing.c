// A __leave, in a section whose filter mends and continues.
int mending(unsigned code) {
  put(code % 256);
  protect((void *)0x20000000, 2);
  return code == 0xC0000025 || code == 0xC0000094 ? 1 : -1;
}
void part0(void) {
  __try {
    put(1);
    __leave;
  } __except (mending(GetExceptionCode())) {
    put(2);
  }
}
int main(void) {
  __try {
    part0();
    put(3);
  } __except (1) {
    put(GetExceptionCode() % 256);
  }
  put(4);
  return 0;
}
