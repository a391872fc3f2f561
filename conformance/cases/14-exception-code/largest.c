// The code is an unsigned number of 32 bits.
// Windows API reference, "GetExceptionCode macro".
int main(void) {
  __try {
    RaiseException(0xEFFFFFFF, 0, 0, 0);
  } __except (GetExceptionCode() > 0 ? 1 : 0) {
    put(GetExceptionCode());
  }
  return 0;
}
