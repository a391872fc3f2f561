// A break, in a section with a __finally block, in a section whose filter accepts, in a section
// with a __finally block.
void part0(void) {
  int i;
  for (i = 0; i < 2; i++) {
    __try {
      __try {
        __try {
          put(1);
          break;
        } __finally {
          put(2 + AbnormalTermination());
        }
        put(4);
      } __except (put(5), 1) {
        put(6);
      }
    } __finally {
      put(7 + AbnormalTermination());
    }
    put(9);
    put(10);
  }
}
int main(void) {
  __try {
    part0();
    put(11);
  } __except (1) {
    put(GetExceptionCode() % 256);
  }
  put(12);
  return 0;
}
