// __leave causes no unwinding: AbnormalTermination is 0 in the block.
// Microsoft C reference, "try-finally statement (C)", The __leave keyword.
void test(int leave) {
  __try {
    if (leave) __leave;
    put(1);
  } __finally {
    put(AbnormalTermination());
  }
}
int main(void) {
  test(1);
  test(0);
  return 0;
}
