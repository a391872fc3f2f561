// A refused access, in an __except block, in a section whose filter takes one code, in a loop.
void fail(int n) { RaiseException(0xE0000000 + n, 0, 0, 0); }
void part0(void) {
  int n0;
  for (n0 = 0; n0 < 2; n0++) {
    __try {
      __try {
        fail(4);
      } __except (1) {
        put(1);
        put(2);
        *(int *)0x20000000 = 1;
        put(3);
      }
    } __except (GetExceptionCode() == 0xE0000003) {
      put(4);
    }
    put(5);
    put(6);
  }
}
int main(void) {
  __try {
    part0();
    put(7);
  } __except (1) {
    put(GetExceptionCode() % 256);
  }
  put(8);
  return 0;
}
