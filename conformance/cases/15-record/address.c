// The second parameter of a refused access is the address that couldn't be accessed.
// Windows API reference, "EXCEPTION_RECORD structure".
int seen(unsigned long long address) {
  put(address - 0x20003000);
  return 1;
}
int main(void) {
  char *page = (char *)0x20003000;
  int i;
  for (i = 0; i < 3; i++) {
    __try {
      page[i * 1000] = 1;
    } __except (seen(GetExceptionInformation()->ExceptionRecord->ExceptionInformation[1])) {
      put(i);
    }
  }
  return 0;
}
