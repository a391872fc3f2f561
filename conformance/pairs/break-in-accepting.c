// A break, in a section whose filter accepts.
void part0(void) {
  int i;
  for (i = 0; i < 2; i++) {
    __try {
      put(1);
      break;
    } __except (put(2), 1) {
      put(3);
    }
    put(4);
  }
}
int main(void) {
  __try {
    part0();
    put(5);
  } __except (1) {
    put(GetExceptionCode() % 256);
  }
  put(6);
  return 0;
}
