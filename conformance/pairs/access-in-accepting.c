// A refused access, in a section whose filter accepts.
void part0(void) {
  __try {
    put(1);
    *(int *)0x20000000 = 1;
    put(2);
  } __except (put(3), 1) {
    put(4);
  }
}
int main(void) {
  __try {
    part0();
    put(5);
  } __except (1) {
    put(GetExceptionCode() % 256);
  }
  put(6);
  return 0;
}
