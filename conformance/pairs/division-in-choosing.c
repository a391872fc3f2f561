// A division by zero, in a section whose filter takes one code.
int zero;
void part0(void) {
  __try {
    put(1);
    put(7 / zero);
    put(2);
  } __except (GetExceptionCode() == 0xE0000003) {
    put(3);
  }
  put(4);
}
int main(void) {
  __try {
    part0();
    put(5);
  } __except (1) {
    put(GetExceptionCode() % 256);
  }
  put(6);
  return 0;
}
