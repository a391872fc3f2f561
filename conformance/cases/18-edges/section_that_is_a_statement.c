// A guarded section may hold another statement alone.
// Microsoft C reference, "try-finally statement (C)".
int main(void) {
  __try {
    __try {
      __try {
        __try {
          put(1);
        } __finally {
          put(2);
        }
      } __except (put(11), 1) {
        put(12);
      }
    } __finally {
      put(3);
    }
  } __except (put(13), 1) {
    put(14);
  }
  return 0;
}
