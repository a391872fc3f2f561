// A __finally block runs once for each activation that is left, with that activation's locals.
// Microsoft x64 ABI, "x64 exception handling", Unwind procedure.
void test(int n) {
  int local = n * 10;
  __try {
    local = local + 1;
    if (n < 3) test(n + 1);
    else RaiseException(0xE0000001, 0, 0, 0);
  } __finally {
    put(local + AbnormalTermination());
  }
}
int main(void) {
  __try {
    test(0);
  } __except (1) {
    put(1);
  }
  return 0;
}
