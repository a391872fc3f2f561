// A division by zero that is continued divides again, and raises as long as the divisor is 0.
// Microsoft C reference, "try-except statement (C)".
int zero;
int asked;
int third_accepts(void) {
  asked = asked + 1;
  return asked == 3 ? 1 : -1;
}
int main(void) {
  __try {
    put(10 / zero);
  } __except (third_accepts()) {
    put(asked);
  }
  return 0;
}
