// The status of the process is what main returns, after its block has run.
// Microsoft C reference, "try-finally statement (C)".
int main(void) {
  __try {
    return 5;
  } __finally {
    put(1);
  }
  return 6;
}
