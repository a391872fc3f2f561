// A filter decides: above 0 it accepts, and the block of the __except runs.
int main(void) {
  __try {
    RaiseException(0xE0000001, 0, 0, 0);
    put(1);
  } __except (GetExceptionCode() == 0xE0000001) {
    put(2);
  }
  return 0;
}
