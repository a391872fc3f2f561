// An access in the filter expression raises as any other, and asks that filter once more.
// Microsoft x64 ABI, "x64 exception handling", Language-specific handler.
int asked;
int main(void) {
  __try {
    __try {
      RaiseException(0xE0000001, 0, 0, 0);
    } __except (asked = asked + 1, asked == 1 ? *(int *)0x20000000 : 0) {
      put(11);
    }
  } __except (GetExceptionCode() == 0xC0000005) {
    put(asked);
  }
  return 0;
}
