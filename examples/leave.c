// AbnormalTermination is 0 after __leave, and 1 after a return out of the body.
int f(int n) {
  __try {
    if (n == 0) __leave;
    return 5;
  } __finally {
    put(AbnormalTermination());
  }
  return 6;
}
int main(void) {
  put(f(0));
  put(f(1));
  return 0;
}
