// Filters run first, while all frames are live; the __finally blocks run after one has accepted.
int say(int n) { put(n); return 1; }
void inner(void) {
  __try {
    RaiseException(0xE0000001, 0, 0, 0);
  } __finally {
    put(20);
  }
}
int main(void) {
  __try {
    inner();
  } __except (say(10)) {
    put(30);
  }
  return 0;
}
