// A break, in a section whose filter mends and continues, in a section whose filter takes one
// code, in a section whose filter goes on.
int mending(unsigned code) {
  put(code % 256);
  protect((void *)0x20000000, 2);
  return code == 0xC0000025 || code == 0xC0000094 ? 1 : -1;
}
void part0(void) {
  int i;
  for (i = 0; i < 2; i++) {
    __try {
      __try {
        __try {
          put(1);
          break;
        } __except (mending(GetExceptionCode())) {
          put(2);
        }
      } __except (GetExceptionCode() == 0xE0000003) {
        put(3);
      }
      put(4);
    } __except (put(5), 0) {
      put(6);
    }
    put(7);
  }
}
int main(void) {
  __try {
    part0();
    put(8);
  } __except (1) {
    put(GetExceptionCode() % 256);
  }
  put(9);
  return 0;
}
