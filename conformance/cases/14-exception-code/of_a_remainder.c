// A remainder by zero has the code EXCEPTION_INT_DIVIDE_BY_ZERO, C0000094.
// Windows API reference, "EXCEPTION_RECORD structure".
unsigned zero;
int main(void) {
  __try {
    put(7 % zero);
  } __except (1) {
    put(GetExceptionCode() == 0xC0000094);
  }
  return 0;
}
