// A local that a routine changes through its address has the new value in filter and block.
// Microsoft C reference, "try-except statement (C)".
void change(int *place) {
  *place = 6;
  RaiseException(0xE0000001, 0, 0, 0);
}
int main(void) {
  int x = 5;
  __try {
    change(&x);
  } __except (put(x), x = x + 1, 1) {
    put(x);
  }
  return 0;
}
