// Each branch of a recursion is handled by itself.
// Microsoft x64 ABI, "x64 exception handling", Unwind procedure.
int leaves;
void tree(int n) {
  if (n == 0) {
    leaves = leaves + 1;
    if (leaves % 2 == 0) RaiseException(0xE0000001, 0, 0, 0);
    return;
  }
  __try {
    tree(n - 1);
    tree(n - 1);
    put(100);
  } __except (n == 1) {
    put(leaves);
  }
}
int main(void) {
  tree(3);
  put(leaves);
  return 0;
}
