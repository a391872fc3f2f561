"""The program seh: what it says of a text, and the row of docs/REFUSALS.md for a refusal."""
import os
import re
import subprocess
import sys
import tempfile
from dataclasses import dataclass

from .source import TOP, Failure, read_bytes

REFUSALS = os.environ.get("REFUSALS", os.path.join(TOP, "docs", "REFUSALS.md"))


@dataclass
class Refusal:
    """A line `refused NAME PLACE`, with what follows the place."""

    name: str
    offset: int
    what: str


@dataclass
class Answer:
    """What a command did: its status, its standard output, and its refusal."""

    status: int
    output: bytes
    refusal: object


def launcher():
    return os.environ.get("SEH", os.path.join(TOP, "seh"))


def ask(text, words):
    """Runs a command of seh with a text as its standard input. Lines of standard error that are no
    refusal are passed on at once, since the launcher may build the program first."""
    refusal = None
    with tempfile.TemporaryFile() as given, tempfile.TemporaryFile() as output:
        given.write(text.encode("latin-1"))
        given.seek(0)
        try:
            child = subprocess.Popen([launcher(), *words], stdin=given, stdout=output,
                                     stderr=subprocess.PIPE)  # fmt: skip
        except OSError as error:
            raise Failure(f"{launcher()} doesn't run: {error.strerror}", 70) from None
        for line in child.stderr:
            match = re.match(rb"refused (\w+) (\d+)(?: (\w+))?\n", line)
            if match:
                refusal = Refusal(match[1].decode(), int(match[2]), (match[3] or b"").decode())
            else:
                sys.stderr.buffer.write(line)
                sys.stderr.flush()
        status = child.wait()
        output.seek(0)
        return Answer(status, output.read(), refusal)


def table_rows(start):
    """The cells of each row of the tables of docs/REFUSALS.md behind a line."""
    text = read_bytes(REFUSALS)
    for line in text[text.find(start) :].split("\n"):
        cells = [cell.strip() for cell in line.split("|")[1:-1]]
        if cells and cells[0] != "---":
            yield cells


def meaning(name):
    """What a refusal means, and where its place is."""
    for cells in table_rows("## Sources"):
        if re.search(rf"`{name}`", cells[0]) and len(cells) == 3:
            return cells[1], cells[2]
    return "", ""


def causes():
    """The causes of TypeClash: what is wrong, and where the place is."""
    found = []
    for cells in table_rows("The causes of `TypeClash`"):
        if len(cells) != 2 or cells[0] == "line":
            break
        found.append(cells)
    return found[1:]
