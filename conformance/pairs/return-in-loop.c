// A return, in a loop.
void part0(void) {
  int n0;
  for (n0 = 0; n0 < 2; n0++) {
    put(1);
    return;
    put(2);
  }
}
int main(void) {
  __try {
    part0();
    put(3);
  } __except (1) {
    put(GetExceptionCode() % 256);
  }
  put(4);
  return 0;
}
