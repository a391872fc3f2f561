// What a handler does with its own locals changes nothing in the function that raised.
// Windows API reference, "AddVectoredExceptionHandler function".
int busy(unsigned code, unsigned flags) {
  int a = 7;
  int b = a * a;
  int c = a * b;
  protect((void *)0x20008000, 2);
  put(a + b + c);
  return -1;
}
int main(void) {
  int x = 3;
  int y = 4;
  int z = 5;
  AddVectoredExceptionHandler(1, busy);
  x = *(int *)0x20008000 + x * y;
  put(x);
  put(y);
  put(z);
  return 0;
}
