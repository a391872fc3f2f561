// A vectored handler is asked before the handlers of frames: this one counts all exceptions, and
// mends accesses of the arena.
int seen = 0;
int watch(unsigned code, unsigned flags) {
  seen++;
  if (code == 0xC0000005) {
    protect((void *)0x20000000, 2);
    return -1;
  }
  return 0;
}
int main(void) {
  AddVectoredExceptionHandler(1, watch);
  put(*(int *)0x20000000);
  __try {
    RaiseException(0xE0000001, 0, 0, 0);
  } __except (1) {
    put(seen);
  }
  RemoveVectoredExceptionHandler(watch);
  __try {
    RaiseException(0xE0000002, 0, 0, 0);
  } __except (1) {
    put(seen);
  }
  return 0;
}
