// A quotient that doesn't fit has the code EXCEPTION_INT_OVERFLOW, C0000095.
// Windows API reference, "EXCEPTION_RECORD structure".
int least = -2147483647;
int minus_one = -1;
int main(void) {
  __try {
    least = least - 1;
    put(least / minus_one);
  } __except (1) {
    put(GetExceptionCode() == 0xC0000095);
  }
  return 0;
}
