// An exception in an argument comes before the call.
// Microsoft C reference, "try-except statement (C)".
int zero;
void called(int n) { put(n); }
int main(void) {
  __try {
    called(5 / zero);
    put(11);
  } __except (1) {
    put(1);
  }
  return 0;
}
