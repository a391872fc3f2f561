"""Numbers and memory of the interpreter: C's types and conversions, where int and long have 32 bits,
and bytes at addresses.
"""
from syntax import INT

ARENA = range(0x20000000, 0x20100000)
PAGE = 4096
GLOBALS = 0x140001000
STACK = 0x30000010


class Memory:
    """Bytes: those of variables, and those of the arena, whose pages have rights."""

    def __init__(self):
        self.bytes, self.rights = {}, {}
        self.top, self.globals_end = STACK, GLOBALS

    def may(self, address, right):
        if address in ARENA:
            return self.rights.get(address // PAGE, 0) >= right
        return address in self.bytes

    def refused(self, address, size, right):
        """The first byte that may not be accessed, or None."""
        return next((a for a in range(address, address + size) if not self.may(a, right)), None)

    def read(self, address, size):
        found = bytes(self.bytes.get(a, 0) for a in range(address, address + size))
        return int.from_bytes(found, "little")

    def write(self, address, size, value):
        parts = (value % (1 << 8 * size)).to_bytes(size, "little")
        self.bytes.update(zip(range(address, address + size), parts))


def size_of(kind):
    return {"number": lambda: kind[1] // 8, "pointer": lambda: 8, "void": lambda: 1}[kind[0]]()


def converted(kind, value):
    """A value as one of a type: modulo its width."""
    if kind[0] == "void":
        return 0
    bits = size_of(kind) * 8
    value %= 1 << bits
    is_negative = kind[0] == "number" and kind[2] and value >> (bits - 1)
    return value - (1 << bits) if is_negative else value


def promoted(kind):
    return INT if kind[0] == "number" and kind[1] < 32 else kind


def common(left, right):
    """The type of an operation on two numbers (C11, 6.3.1.8)."""
    left, right = promoted(left), promoted(right)
    if left[1] != right[1]:
        return max(left, right, key=lambda kind: kind[1])
    return ("number", left[1], left[2] and right[2])


def divided(left, right):
    quotient = abs(left) // abs(right)
    return quotient if (left < 0) == (right < 0) else -quotient


PURE = {
    "+": lambda a, b: a + b, "-": lambda a, b: a - b, "*": lambda a, b: a * b,
    "&": lambda a, b: a & b, "|": lambda a, b: a | b, "^": lambda a, b: a ^ b,
}
COMPARED = {
    "==": lambda a, b: a == b, "!=": lambda a, b: a != b, "<": lambda a, b: a < b,
    ">": lambda a, b: a > b, "<=": lambda a, b: a <= b, ">=": lambda a, b: a >= b,
}
