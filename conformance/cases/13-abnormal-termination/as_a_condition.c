// The value may be tested in the block: work is undone where the section wasn't ended.
// Windows API reference, "AbnormalTermination macro".
int balance = 10;
void move(int amount, int failing) {
  __try {
    balance = balance - amount;
    if (failing) RaiseException(0xE0000001, 0, 0, 0);
  } __finally {
    if (AbnormalTermination()) balance = balance + amount;
  }
}
int main(void) {
  move(3, 0);
  put(balance);
  __try {
    move(5, 1);
  } __except (1) {
    put(balance);
  }
  return 0;
}
