// A normal end, in a section whose filter takes one code, in a section whose __finally block
// raises.
void fail(int n) { RaiseException(0xE0000000 + n, 0, 0, 0); }
void part0(void) {
  __try {
    __try {
      put(1);
    } __except (GetExceptionCode() == 0xE0000003) {
      put(2);
    }
    put(3);
  } __finally {
    put(4);
    if (AbnormalTermination()) fail(3);
  }
  put(5);
}
int main(void) {
  __try {
    part0();
    put(6);
  } __except (1) {
    put(GetExceptionCode() % 256);
  }
  put(7);
  return 0;
}
