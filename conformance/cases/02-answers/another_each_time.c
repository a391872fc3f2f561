// A filter is evaluated anew for each exception of its guarded section.
// Microsoft C reference, "try-except statement (C)".
int asked;
int every_second(void) {
  asked = asked + 1;
  return asked % 2 == 0;
}
void test(int n) {
  __try {
    RaiseException(0xE0000001, 0, 0, 0);
  } __except (every_second()) {
    put(n);
  }
}
int main(void) {
  int i;
  for (i = 1; i < 5; i++) {
    __try {
      test(i);
    } __except (1) {
      put(10 + i);
    }
  }
  return 0;
}
