// Where no filter accepts, the run ends as unhandled, and no __finally block runs.
int zero;
int main(void) {
  __try {
    put(1 / zero);
  } __finally {
    put(8);
  }
  return 0;
}
