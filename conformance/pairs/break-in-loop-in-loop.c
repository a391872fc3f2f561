// A break, in a loop, in a loop.
void part0(void) {
  int n0;
  for (n0 = 0; n0 < 2; n0++) {
    int n1;
    for (n1 = 0; n1 < 2; n1++) {
      put(1);
      break;
      put(2);
    }
    put(3);
  }
}
int main(void) {
  __try {
    part0();
    put(4);
  } __except (1) {
    put(GetExceptionCode() % 256);
  }
  put(5);
  return 0;
}
