// A return, in a section whose filter mends and continues, in a section whose filter goes on, in
// a section whose filter takes one code.
int mending(unsigned code) {
  put(code % 256);
  protect((void *)0x20000000, 2);
  return code == 0xC0000025 || code == 0xC0000094 ? 1 : -1;
}
void part0(void) {
  __try {
    __try {
      __try {
        put(1);
        return;
      } __except (mending(GetExceptionCode())) {
        put(2);
      }
    } __except (put(3), 0) {
      put(4);
    }
  } __except (GetExceptionCode() == 0xE0000003) {
    put(5);
  }
  put(6);
}
int main(void) {
  __try {
    part0();
    put(7);
  } __except (1) {
    put(GetExceptionCode() % 256);
  }
  put(8);
  return 0;
}
