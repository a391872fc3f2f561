// A break, in a section whose filter accepts, in a section with a __finally block.
void part0(void) {
  int i;
  for (i = 0; i < 2; i++) {
    __try {
      __try {
        put(1);
        break;
      } __except (put(2), 1) {
        put(3);
      }
    } __finally {
      put(4 + AbnormalTermination());
    }
    put(6);
    put(7);
  }
}
int main(void) {
  __try {
    part0();
    put(8);
  } __except (1) {
    put(GetExceptionCode() % 256);
  }
  put(9);
  return 0;
}
