// An exception that a routine handles doesn't change the code of the block that called it.
// Windows API reference, "GetExceptionCode macro".
void careful(void) {
  __try {
    RaiseException(0xE0000002, 0, 0, 0);
  } __except (1) {
    put(GetExceptionCode() == 0xE0000002);
  }
}
int main(void) {
  __try {
    RaiseException(0xE0000001, 0, 0, 0);
  } __except (1) {
    careful();
    put(GetExceptionCode() == 0xE0000001);
  }
  return 0;
}
