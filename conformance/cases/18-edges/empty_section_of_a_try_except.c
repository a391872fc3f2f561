// An empty guarded section raises nothing: neither filter nor block runs.
// Microsoft C reference, "try-except statement (C)".
int main(void) {
  __try {
  } __except (put(11), 1) {
    put(12);
  }
  put(1);
  return 0;
}
