"""Constant expressions of C as numbers, and the sizes of types."""
import re

from .structure import TYPE_WORDS

LEVELS = [["||"], ["&&"], ["|"], ["^"], ["&"], ["==", "!="], ["<", ">", "<=", ">="]]
LEVELS += [["<<", ">>"], ["+", "-"], ["*", "/", "%"]]
ESCAPES = {"n": 10, "t": 9, "r": 13, "0": 0, "\\": 92, "'": 39, '"': 34}
ESCAPES.update({"a": 7, "b": 8, "f": 12, "v": 11})


class NotConstant(Exception):
    """The tokens are no constant expression of integers."""


def number(text):
    """The value of an integer literal."""
    digits = re.sub(r"(?i)(u?i64|[ul]*)$", "", text) if not is_hexadecimal(text) else text
    digits = re.sub(r"(?i)(u?i64|[ul]+)$", "", digits)
    try:
        if re.fullmatch(r"0[0-7]+", digits):
            return int(digits, 8)
        return int(digits, 0)
    except ValueError:
        raise NotConstant(text) from None


def is_hexadecimal(text):
    return text[:2].lower() == "0x"


def characters(text):
    """The bytes of a string literal or a character constant, without the end of a string."""
    body, found = re.sub(r"^\w*", "", text)[1:-1], []
    for escape, one in re.findall(r"\\(x[0-9A-Fa-f]+|[0-7]{1,3}|.)|(.)", body, re.S):
        if one:
            found.append(ord(one))
        elif escape[0] == "x":
            found.append(int(escape[1:], 16))
        elif escape.isdigit():
            found.append(int(escape, 8))
        else:
            found.append(ESCAPES.get(escape, ord(escape)))
    return found


class Reader:
    """Reads an expression from left to right."""

    def __init__(self, tokens, names):
        self.tokens, self.names, self.at = tokens, names, 0

    def next_text(self):
        return self.tokens[self.at].text if self.at < len(self.tokens) else ""

    def take(self):
        self.at += 1
        return self.tokens[self.at - 1] if self.at <= len(self.tokens) else None

    def conditional(self):
        value = self.binary(0)
        if self.next_text() != "?":
            return value
        self.take()
        first = self.conditional()
        if self.next_text() != ":":
            raise NotConstant
        self.take()
        second = self.conditional()
        return first if value else second

    def binary(self, level):
        if level == len(LEVELS):
            return self.unary()
        value = self.binary(level + 1)
        while self.next_text() in LEVELS[level]:
            sign = self.take().text
            value = computed(sign, value, self.binary(level + 1))
        return value

    def unary(self):
        token = self.take()
        if token is None:
            raise NotConstant
        if token.text in ("-", "+", "~", "!"):
            value = self.unary()
            return {"-": -value, "+": value, "~": ~value, "!": int(not value)}[token.text]
        if token.text == "(":
            return self.in_brackets()
        if token.kind == "number":
            return number(token.text)
        if token.kind == "char":
            return characters(token.text)[0]
        if token.text in self.names:
            return self.names[token.text]
        raise NotConstant(token.text)

    def in_brackets(self):
        base = []
        while self.next_text() in TYPE_WORDS:
            base.append(self.take().text)
        value = None if base else self.conditional()
        closing = self.take()
        if closing is None or closing.text != ")":
            raise NotConstant
        return converted(self.unary(), base) if base else value


def computed(sign, a, b):
    if sign in ("/", "%"):
        if b == 0:
            raise NotConstant
        quotient = abs(a) // abs(b) * (1 if (a < 0) == (b < 0) else -1)
        return quotient if sign == "/" else a - quotient * b
    if sign in ("<<", ">>"):
        if not 0 <= b < 64:
            raise NotConstant
        return a << b if sign == "<<" else a >> b
    return {
        "+": a + b, "-": a - b, "*": a * b, "|": a | b, "&": a & b, "^": a ^ b,
        "==": int(a == b), "!=": int(a != b), "<": int(a < b), ">": int(a > b),
        "<=": int(a <= b), ">=": int(a >= b), "&&": int(bool(a and b)), "||": int(bool(a or b)),
    }[sign]  # fmt: skip


def size_of(base, stars=0):
    """The size in bytes of a type: its words, or the words as one string."""
    names = base.split() if isinstance(base, str) else list(base)
    if stars:
        return 8
    if "char" in names:
        return 1
    if "short" in names:
        return 2
    if names.count("long") >= 2:
        return 8
    if not names or set(names) - TYPE_WORDS or set(names) & {"void", "float", "double"}:
        raise NotConstant(" ".join(names))
    return 4


def converted(value, base):
    """A value as a type of integers holds it."""
    bits = 8 * size_of(base)
    value &= (1 << bits) - 1
    return value if "unsigned" in base or value < 1 << (bits - 1) else value - (1 << bits)


def evaluated(tokens, names=None):
    """The value of a constant expression; NotConstant where it is none."""
    reader = Reader(tokens, names or {})
    value = reader.conditional()
    if reader.at < len(tokens):
        raise NotConstant
    return value
