// A noncontinuable exception, in a section whose filter goes on, in a section whose filter
// accepts, in a section whose filter goes on.
void part0(void) {
  __try {
    __try {
      __try {
        put(1);
        RaiseException(0xE0000001, 1, 0, 0);
        put(2);
      } __except (put(3), 0) {
        put(4);
      }
    } __except (put(5), 1) {
      put(6);
    }
  } __except (put(7), 0) {
    put(8);
  }
}
int main(void) {
  __try {
    part0();
    put(9);
  } __except (1) {
    put(GetExceptionCode() % 256);
  }
  put(10);
  return 0;
}
