// A filter may call the function that it stands in; the inner activation has its own section.
// Microsoft C reference, "try-except statement (C)".
int test(int n) {
  int answer = 0;
  __try {
    RaiseException(0xE0000000 + n, 0, 0, 0);
  } __except (n == 0 ? 1 : test(n - 1)) {
    put(n);
    answer = 1;
  }
  return answer;
}
int main(void) {
  put(test(3));
  return 0;
}
