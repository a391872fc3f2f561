// A noncontinuable exception, in a section with a __finally block.
void part0(void) {
  __try {
    put(1);
    RaiseException(0xE0000001, 1, 0, 0);
    put(2);
  } __finally {
    put(3 + AbnormalTermination());
  }
  put(5);
}
int main(void) {
  __try {
    part0();
    put(6);
  } __except (1) {
    put(GetExceptionCode() % 256);
  }
  put(7);
  return 0;
}
