// A return, in a section whose filter takes one code, in a section whose filter takes one code.
void part0(void) {
  __try {
    __try {
      put(1);
      return;
    } __except (GetExceptionCode() == 0xE0000003) {
      put(2);
    }
    put(3);
  } __except (GetExceptionCode() == 0xE0000003) {
    put(4);
  }
  put(5);
}
int main(void) {
  __try {
    part0();
    put(6);
  } __except (1) {
    put(GetExceptionCode() % 256);
  }
  put(7);
  return 0;
}
