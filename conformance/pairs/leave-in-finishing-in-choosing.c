// A __leave, in a section with a __finally block, in a section whose filter takes one code.
void part0(void) {
  __try {
    __try {
      put(1);
      __leave;
    } __finally {
      put(2 + AbnormalTermination());
    }
    put(4);
  } __except (GetExceptionCode() == 0xE0000003) {
    put(5);
  }
  put(6);
}
int main(void) {
  __try {
    part0();
    put(7);
  } __except (1) {
    put(GetExceptionCode() % 256);
  }
  put(8);
  return 0;
}
