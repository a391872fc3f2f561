// Each function's sections are its own.
// Microsoft x64 ABI, "x64 exception handling", Language-specific handler.
void fail(int n, int wanted) {
  if (n == wanted) RaiseException(0xE0000001, 0, 0, 0);
}
void a(int n) { __try { fail(n, 1); } __except (1) { put(1); } }
void b(int n) { __try { fail(n, 2); a(n); } __finally { put(2); } }
void c(int n) { __try { fail(n, 3); b(n); } __except (1) { put(3); } }
void d(int n) { __try { fail(n, 4); c(n); } __finally { put(4); } }
int main(void) {
  int i;
  for (i = 1; i < 5; i++) {
    __try { d(i); } __except (1) { put(5); }
  }
  return 0;
}
