// Frames of functions without a local are unwound as all others.
// Microsoft x64 ABI, "x64 exception handling", Unwind procedure.
int count;
void three(void) {
  count = count + 1;
  RaiseException(0xE0000001, 0, 0, 0);
}
void two(void) {
  three();
  put(11);
}
void one(void) {
  two();
  put(12);
}
int main(void) {
  __try {
    one();
  } __except (1) {
    put(count);
  }
  return 0;
}
