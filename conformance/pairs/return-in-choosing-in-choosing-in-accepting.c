// A return, in a section whose filter takes one code, in a section whose filter takes one code,
// in a section whose filter accepts.
void part0(void) {
  __try {
    __try {
      __try {
        put(1);
        return;
      } __except (GetExceptionCode() == 0xE0000003) {
        put(2);
      }
      put(3);
    } __except (GetExceptionCode() == 0xE0000003) {
      put(4);
    }
    put(5);
  } __except (put(6), 1) {
    put(7);
  }
}
int main(void) {
  __try {
    part0();
    put(8);
  } __except (1) {
    put(GetExceptionCode() % 256);
  }
  put(9);
  return 0;
}
