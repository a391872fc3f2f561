// The code may be passed to a routine; GetExceptionCode itself stands in the filter.
// Windows API reference, "GetExceptionCode macro".
int is_listed(unsigned code, unsigned first, unsigned second) {
  return code == first || code == second;
}
void test(int n) {
  __try {
    RaiseException(0xE0000000 + n, 0, 0, 0);
  } __except (is_listed(GetExceptionCode(), 0xE0000001, 0xE0000003)) {
    put(n);
  }
}
int main(void) {
  int i;
  for (i = 1; i < 5; i++) {
    __try {
      test(i);
    } __except (1) {
      put(10 + i);
    }
  }
  return 0;
}
