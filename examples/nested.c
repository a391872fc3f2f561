// An exception in a filter searches from there, then from the first raise; accepted, it takes its
// place.
int count;
int bad(void) {
  count = count + 1;
  if (count == 1) RaiseException(0xE0000002, 0, 0, 0);
  return 0;
}
int main(void) {
  __try {
    __try {
      RaiseException(0xE0000001, 0, 0, 0);
    } __except (bad()) {
      put(8);
    }
  } __except (GetExceptionCode() == 0xE0000002) {
    put(count);
  }
  return 0;
}
