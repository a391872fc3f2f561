// Each access of a closed page is continued by itself; an open one raises no more.
// Microsoft C reference, "try-except statement (C)".
int opened;
int open(unsigned long long address) {
  opened = opened + 1;
  protect((void *)address, 2);
  return -1;
}
int main(void) {
  char *arena = (char *)0x20000000;
  int i;
  int sum = 0;
  __try {
    for (i = 0; i < 8; i++) arena[i * 2048] = i;
    for (i = 0; i < 8; i++) sum = sum + arena[i * 2048];
  } __except (open(GetExceptionInformation()->ExceptionRecord->ExceptionInformation[1])) {
    put(11);
  }
  put(opened);
  put(sum);
  return 0;
}
