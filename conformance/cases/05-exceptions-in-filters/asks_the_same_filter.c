// The filter runs below the point of the first exception, so a second one asks it again.
// Microsoft x64 ABI, "x64 exception handling", Language-specific handler.
int asked;
int bad(void) {
  asked = asked + 1;
  put(asked);
  if (asked == 1) RaiseException(0xE0000002, 0, 0, 0);
  put(10 + asked);
  return asked == 2;
}
int main(void) {
  __try {
    RaiseException(0xE0000001, 0, 0, 0);
  } __except (bad()) {
    put(GetExceptionCode() == 0xE0000002);
  }
  return 0;
}
