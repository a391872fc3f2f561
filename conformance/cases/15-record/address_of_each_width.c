// The address is the access's own, whatever its width.
// Windows API reference, "EXCEPTION_RECORD structure".
int seen(unsigned long long address) {
  put(address & 0xFFFF);
  return 1;
}
int main(void) {
  char *page = (char *)0x20040000;
  long long sum = 0;
  __try {
    sum = sum + *(page + 3);
  } __except (seen(GetExceptionInformation()->ExceptionRecord->ExceptionInformation[1])) {
    sum = sum + 1;
  }
  __try {
    sum = sum + *(short *)(page + 6);
  } __except (seen(GetExceptionInformation()->ExceptionRecord->ExceptionInformation[1])) {
    sum = sum + 10;
  }
  __try {
    sum = sum + *(long long *)(page + 16);
  } __except (seen(GetExceptionInformation()->ExceptionRecord->ExceptionInformation[1])) {
    sum = sum + 100;
  }
  put(sum);
  return 0;
}
