// The termination handlers of the routines D, C and B run in this order where A handles.
// Microsoft C reference, "try-finally statement (C)".
void d(void) {
  __try {
    RaiseException(0xE0000001, 0, 0, 0);
  } __finally {
    put(1);
  }
}
void c(void) {
  __try {
    d();
  } __finally {
    put(2);
  }
}
void b(void) {
  __try {
    c();
  } __finally {
    put(3);
  }
}
int main(void) {
  __try {
    b();
  } __except (1) {
    put(4);
  }
  return 0;
}
