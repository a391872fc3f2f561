// A break, in a section whose filter takes one code, in an __except block, in a section with a
// __finally block.
void fail(int n) { RaiseException(0xE0000000 + n, 0, 0, 0); }
void part0(void) {
  int i;
  for (i = 0; i < 2; i++) {
    __try {
      __try {
        fail(4);
      } __except (1) {
        put(1);
        __try {
          put(2);
          break;
        } __except (GetExceptionCode() == 0xE0000003) {
          put(3);
        }
        put(4);
      }
    } __finally {
      put(5 + AbnormalTermination());
    }
    put(7);
    put(8);
  }
}
int main(void) {
  __try {
    part0();
    put(9);
  } __except (1) {
    put(GetExceptionCode() % 256);
  }
  put(10);
  return 0;
}
