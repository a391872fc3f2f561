"""The syntax of the cases: a C subset with __try, read to trees of tuples.

An expression is one of
    ("number", type, value)  ("name", name)  ("call", name, arguments)
    ("unary", sign, operand)  ("step", sign, is_prefix, operand)  ("cast", type, operand)
    ("binary", sign, left, right)  ("assign", sign, target, value)
    ("choice", condition, first, second)  ("record", field, index)
and a statement one of
    ("block", statements)  ("declare", [(type, name, length, value)])  ("expression", value)
    ("if", condition, first, second)  ("while", condition, body)  ("do", body, condition)
    ("for", begin, condition, step, body)  ("return", value)  ("break",)  ("continue",)
    ("leave",)  ("except", body, filter, block)  ("finally", body, block)
A type is ("number", bits, is_signed), ("pointer", type) or ("void",).
"""
import re

INT = ("number", 32, True)
UNSIGNED = ("number", 32, False)
LONG = ("number", 64, True)
ULONG = ("number", 64, False)
VOID = ("void",)
TOKEN = re.compile(
    r"\s+|//[^\n]*|/\*.*?\*/"
    r"|(?P<token>0[xX][0-9a-fA-F]+[uUlL]*|\d+[uUlL]*|\w+|'(?:\\.|[^'\\])'"
    r"|<<=|>>=|&&|\|\||<<|>>|->|\+\+|--|[-+*/%&|^<>=!]=|[-+*/%&|^~!<>=(){}\[\];,?:])",
    re.S,
)
TYPE_WORDS = {"void", "char", "short", "int", "long", "signed", "unsigned"}
LEVELS = ["||", "&&", "|", "^", "&", "== !=", "< > <= >=", "<< >>", "+ -", "* / %"]
ASSIGNING = "= += -= *= /= %= &= |= ^= <<= >>=".split()
NAMED = {
    "EXCEPTION_EXECUTE_HANDLER": 1,
    "EXCEPTION_CONTINUE_SEARCH": 0,
    "EXCEPTION_CONTINUE_EXECUTION": -1,
}
LARGEST = 40


def tokens_of(text):
    tokens, at = [], 0
    while at < len(text):
        found = TOKEN.match(text, at)
        if not found:
            raise SyntaxError(f"at {text[at:at + LARGEST]!r}")
        if found["token"]:
            tokens.append(found["token"])
        at = found.end()
    return tokens


def number_of(token):
    """The type and value of an integer literal (C11, 6.4.4.1, where long has 32 bits)."""
    digits = token.rstrip("uUlL")
    suffix = token[len(digits):].lower()
    is_decimal = digits[0] != "0" or digits == "0"
    value = int(digits, 10 if is_decimal else 16 if digits[1] in "xX" else 8)
    kinds = [INT, UNSIGNED, LONG, ULONG]
    if "ll" in suffix:
        kinds = [LONG, ULONG]
    if "u" in suffix:
        kinds = [kind for kind in kinds if not kind[2]]
    elif is_decimal:
        kinds = [kind for kind in kinds if kind[2]]
    return next(("number", kind, value) for kind in kinds if value < 1 << kind[1] - kind[2])


class Parser:
    """Reads the tokens of one program from the front."""

    def __init__(self, text):
        self.tokens = tokens_of(text) + ["end of text"]
        self.at = 0

    def peek(self, ahead=0):
        return self.tokens[self.at + ahead]

    def take(self, wanted=None):
        token = self.tokens[self.at]
        if wanted is not None and token != wanted:
            raise SyntaxError(f"{token} in place of {wanted}")
        self.at += 1
        return token

    def takes(self, wanted):
        if self.peek() == wanted:
            self.at += 1
            return True
        return False

    def base(self):
        words = []
        while self.peek() in TYPE_WORDS:
            words.append(self.take())
        if words == ["void"]:
            return VOID
        bits = 8 if "char" in words else 16 if "short" in words else 32
        if words.count("long") == 2:
            bits = 64
        return ("number", bits, "unsigned" not in words)

    def pointed(self, kind):
        while self.takes("*"):
            kind = ("pointer", kind)
        return kind

    def program(self):
        functions, variables = {}, []
        while self.peek() != "end of text":
            base = self.base()
            kind, name = self.pointed(base), self.take()
            if self.takes("("):
                functions[name] = (kind, self.parameters(), self.block())
                continue
            variables.append(self.variable(kind, name))
            while self.takes(","):
                kind = self.pointed(base)
                variables.append(self.variable(kind, self.take()))
            self.take(";")
        return functions, variables

    def parameters(self):
        found = []
        while not self.takes(")"):
            if self.peek() == "void" and self.peek(1) == ")":
                self.take()
                continue
            kind = self.pointed(self.base())
            found.append((kind, self.take()))
            self.takes(",")
        return found

    def variable(self, kind, name):
        length = value = None
        if self.takes("["):
            length = number_of(self.take())[2]
            self.take("]")
        if self.takes("="):
            value = self.list() if self.peek() == "{" else self.assignment()
        return (kind, name, length, value)

    def list(self):
        self.take("{")
        values = [self.assignment()]
        while self.takes(","):
            values.append(self.assignment())
        self.take("}")
        return values

    def block(self):
        self.take("{")
        found = []
        while not self.takes("}"):
            found.append(self.statement())
        return ("block", found)

    def declaration(self):
        base = self.base()
        found = []
        while True:
            kind = self.pointed(base)
            found.append(self.variable(kind, self.take()))
            if not self.takes(","):
                self.take(";")
                return ("declare", found)

    def statement(self):
        first = self.peek()
        if first == "{":
            return self.block()
        if first in TYPE_WORDS:
            return self.declaration()
        reader = {
            "if": self.branch, "while": self.while_loop, "do": self.do_loop, "for": self.for_loop,
            "return": self.leaving, "break": self.leaving, "continue": self.leaving,
            "__leave": self.leaving, "__try": self.guarded,
        }.get(first)
        if reader:
            self.take()
            return reader(first)
        return ("expression", self.until(";"))

    def until(self, end):
        """An expression, or nothing, and the sign after it."""
        found = None if self.peek() == end else self.expression()
        self.take(end)
        return found

    def condition(self):
        self.take("(")
        return self.until(")")

    def branch(self, _first):
        condition = self.condition()
        first = self.statement()
        return ("if", condition, first, self.statement() if self.takes("else") else None)

    def while_loop(self, _first):
        condition = self.condition()
        return ("while", condition, self.statement())

    def do_loop(self, _first):
        body = self.statement()
        self.take("while")
        condition = self.condition()
        self.take(";")
        return ("do", body, condition)

    def for_loop(self, _first):
        self.take("(")
        if self.peek() in TYPE_WORDS:
            begin = self.declaration()
        else:
            begin = ("expression", self.until(";"))
        condition = self.until(";")
        step = self.until(")")
        return ("for", begin, condition, step, self.statement())

    def leaving(self, first):
        if first == "return":
            return ("return", self.until(";"))
        self.take(";")
        return (first.strip("_"),)

    def guarded(self, _first):
        body = self.block()
        if self.takes("__finally"):
            return ("finally", body, self.block())
        self.take("__except")
        answer = self.condition()
        return ("except", body, answer, self.block())

    def expression(self):
        left = self.assignment()
        while self.takes(","):
            left = ("binary", ",", left, self.assignment())
        return left

    def assignment(self):
        left = self.choice()
        if self.peek() in ASSIGNING:
            sign = self.take()
            return ("assign", sign[:-1], left, self.assignment())
        return left

    def choice(self):
        condition = self.binary(0)
        if not self.takes("?"):
            return condition
        first = self.expression()
        self.take(":")
        return ("choice", condition, first, self.choice())

    def binary(self, level):
        if level == len(LEVELS):
            return self.unary()
        left = self.binary(level + 1)
        while self.peek() in LEVELS[level].split():
            left = ("binary", self.take(), left, self.binary(level + 1))
        return left

    def unary(self):
        first = self.peek()
        if first in ("++", "--"):
            self.take()
            return ("step", first[0], True, self.unary())
        if first in ("-", "+", "!", "~", "*", "&"):
            self.take()
            return ("unary", first, self.unary())
        if first == "(" and self.peek(1) in TYPE_WORDS:
            self.take()
            kind = self.pointed(self.base())
            self.take(")")
            return ("cast", kind, self.unary())
        return self.postfix()

    def postfix(self):
        found = self.primary()
        while True:
            if self.takes("["):
                found = ("unary", "*", ("binary", "+", found, self.until("]")))
            elif self.peek() in ("++", "--"):
                found = ("step", self.take()[0], False, found)
            else:
                return found

    def primary(self):
        first = self.take()
        if first == "(":
            return self.until(")")
        if first[0].isdigit():
            return number_of(first)
        if first[0] == "'":
            return ("number", INT, ord(first[1:-1].encode().decode("unicode_escape")))
        if first in NAMED:
            return ("number", INT, NAMED[first])
        if not self.takes("("):
            return ("name", first)
        if first == "GetExceptionInformation":
            return self.record()
        arguments = []
        while not self.takes(")"):
            arguments.append(self.assignment())
            self.takes(",")
        return ("call", first, arguments)

    def record(self):
        for sign in (")", "->", "ExceptionRecord", "->"):
            self.take(sign)
        field, index = self.take(), 0
        if self.takes("["):
            index = number_of(self.take())[2]
            self.take("]")
        return ("record", field, index)
