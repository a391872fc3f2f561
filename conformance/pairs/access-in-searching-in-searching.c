// A refused access, in a section whose filter goes on, in a section whose filter goes on.
void part0(void) {
  __try {
    __try {
      put(1);
      *(int *)0x20000000 = 1;
      put(2);
    } __except (put(3), 0) {
      put(4);
    }
  } __except (put(5), 0) {
    put(6);
  }
}
int main(void) {
  __try {
    part0();
    put(7);
  } __except (1) {
    put(GetExceptionCode() % 256);
  }
  put(8);
  return 0;
}
