// A continue, in a section with a __finally block.
void part0(void) {
  int i;
  for (i = 0; i < 2; i++) {
    __try {
      put(1);
      continue;
    } __finally {
      put(2 + AbnormalTermination());
    }
    put(4);
    put(5);
  }
}
int main(void) {
  __try {
    part0();
    put(6);
  } __except (1) {
    put(GetExceptionCode() % 256);
  }
  put(7);
  return 0;
}
