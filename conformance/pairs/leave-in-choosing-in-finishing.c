// A __leave, in a section whose filter takes one code, in a section with a __finally block.
void part0(void) {
  __try {
    __try {
      put(1);
      __leave;
    } __except (GetExceptionCode() == 0xE0000003) {
      put(2);
    }
    put(3);
  } __finally {
    put(4 + AbnormalTermination());
  }
  put(6);
}
int main(void) {
  __try {
    part0();
    put(7);
  } __except (1) {
    put(GetExceptionCode() % 256);
  }
  put(8);
  return 0;
}
