// walk() names the live functions, innermost first: while a filter runs all of them are live, and
// in the __except block those that it called are gone.
int asks(void) { walk(); return 1; }
void fails(void) { RaiseException(0xE0000001, 0, 0, 0); }
void works(void) { fails(); }
int main(void) {
  __try {
    works();
  } __except (asks()) {
    walk();
  }
  return 0;
}
