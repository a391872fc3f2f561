// A filter that answers 0 leaves the exception to the next one outside.
int main(void) {
  __try {
    __try {
      *(int *)0 = 1;
    } __except (GetExceptionCode() == 0xC0000094) {
      put(1);
    }
  } __except (GetExceptionCode() == 0xC0000005) {
    put(2);
  }
  return 0;
}
