// A handler may raise and handle inside of itself; it is called about that exception, too.
// Windows API reference, "AddVectoredExceptionHandler function".
int watch(unsigned code, unsigned flags) {
  put(code == 0xE0000002);
  if (code == 0xE0000002) return 0;
  __try {
    RaiseException(0xE0000002, 0, 0, 0);
  } __except (1) {
    put(2);
  }
  return 0;
}
int main(void) {
  AddVectoredExceptionHandler(1, watch);
  __try {
    RaiseException(0xE0000001, 0, 0, 0);
  } __except (1) {
    put(GetExceptionCode() == 0xE0000001);
  }
  return 0;
}
