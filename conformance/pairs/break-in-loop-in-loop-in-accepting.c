// A break, in a loop, in a loop, in a section whose filter accepts.
void part0(void) {
  __try {
    int n1;
    for (n1 = 0; n1 < 2; n1++) {
      int n2;
      for (n2 = 0; n2 < 2; n2++) {
        put(1);
        break;
        put(2);
      }
      put(3);
    }
  } __except (put(4), 1) {
    put(5);
  }
}
int main(void) {
  __try {
    part0();
    put(6);
  } __except (1) {
    put(GetExceptionCode() % 256);
  }
  put(7);
  return 0;
}
