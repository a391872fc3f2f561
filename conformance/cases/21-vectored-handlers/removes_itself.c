// A handler may remove itself while it is called; the next exception doesn't find it.
// Windows API reference, "AddVectoredExceptionHandler function".
int once(unsigned code, unsigned flags) {
  put(RemoveVectoredExceptionHandler(once));
  return 0;
}
int main(void) {
  int i;
  AddVectoredExceptionHandler(1, once);
  for (i = 2; i < 5; i++) {
    __try {
      RaiseException(0xE0000001, 0, 0, 0);
    } __except (1) {
      put(i);
    }
  }
  return 0;
}
