// A refused access has the code EXCEPTION_ACCESS_VIOLATION, C0000005.
// Windows API reference, "EXCEPTION_RECORD structure".
int *nowhere;
int main(void) {
  __try {
    *nowhere = 1;
  } __except (put(GetExceptionCode() == 0xC0000005), 1) {
    put(GetExceptionCode() == 0xC0000005);
  }
  return 0;
}
