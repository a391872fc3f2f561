// The section terminates normally where control leaves it after its last statement.
// Windows API reference, "AbnormalTermination macro".
int main(void) {
  __try {
    put(1);
  } __finally {
    put(AbnormalTermination());
  }
  return 0;
}
