// A leaf function has no entry in the function table: its caller is found by the return address.
// Microsoft x64 ABI, "x64 exception handling", Unwind procedure.
int get(int *from) { return *from; }
int main(void) {
  __try {
    put(get((int *)0x20005000));
  } __except (1) {
    put(GetExceptionCode() == 0xC0000005);
  }
  return 0;
}
