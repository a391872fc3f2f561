// A return, in a section whose filter goes on.
void part0(void) {
  __try {
    put(1);
    return;
  } __except (put(2), 0) {
    put(3);
  }
}
int main(void) {
  __try {
    part0();
    put(4);
  } __except (1) {
    put(GetExceptionCode() % 256);
  }
  put(5);
  return 0;
}
