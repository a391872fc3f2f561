// A normal end, in a section with a __finally block.
void part0(void) {
  __try {
    put(1);
  } __finally {
    put(2 + AbnormalTermination());
  }
  put(4);
}
int main(void) {
  __try {
    part0();
    put(5);
  } __except (1) {
    put(GetExceptionCode() % 256);
  }
  put(6);
  return 0;
}
