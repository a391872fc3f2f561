#!/usr/bin/env python3
"""Lists definitions and lemmas of .antt files that nothing uses: docs/find_unused.py. A name is used
where its file has it outside its own lines, or a file that imports it has it outside `use` lines;
what only unused ones use is unused too. A lower bound: names of operators are left out, and a word
that happens to be the same counts as a use. Rows and worked examples are there for their own sake."""
import collections
import glob
import os
import re
import sys

TOP = os.path.dirname(os.path.dirname(os.path.abspath(__file__)))
OWN_SAKE = re.compile(
    r"crates/worked_programs/|/(More|Source|Linear|Calm)?Rows\.antt$|/(Worked|Shown|Example|Witnesses)\w*\.antt$"
)
USE = re.compile(
    r"\s*(pub )?(?:ghost )?use (Rattle\.[^\s{;]+?)(?:\.\{(.*?)\}| as (\w+))?;?\s*$"
)
WORD = re.compile(r"[\w'\-]+")
PREFIX = re.compile(r"^((abbrev|unfoldable|pub|infix\w* \d+) )*((record|data|ruleset) )?")
Unit = collections.namedtuple("Unit", "path name names start end")


def module_of(path):
    return "Rattle." + path[len("crates/") : -len(".antt")].replace("/", ".")


def imports_of(lines):
    """What a file imports: local name -> (module, name); alias -> module; and what it hands on."""
    names, aliases, handed = {}, {}, {}
    for line in lines:
        found = USE.match(line)
        if not found:
            continue
        public, module, several, alias = found.groups()
        for item in (several or "").split(","):
            words = item.split()
            if words:
                names[words[-1]] = (module, words[0])
                if public:
                    handed[words[-1]] = (module, words[0])
        if several is None:
            aliases[alias or module.split(".")[-1]] = module
    return names, aliases, handed


def units_of(path, lines):
    """The members of a file, with the lines that are theirs."""
    found, stack, name, names, start, end, depth, is_type = [], [0], None, [], 0, 0, 0, False
    # where a `module` or `mutual` begins, up to its `where`; then its first line sets the indent
    in_head = opens = False

    def close():
        if name:
            found.append(Unit(path, name, names, start, end))

    in_open = False
    for number, line in enumerate(lines, 1):
        text = line.strip()
        if in_open or text.startswith("open "):
            in_open = "}" not in text and "{" in text or in_open and "}" not in text
            continue
        if not text or text.startswith("--") or re.match(r"(unfoldable )?(pub )?use ", text):
            continue
        indent = len(line) - len(line.lstrip())
        if in_head:
            in_head, opens = not text.endswith("where"), text.endswith("where")
            continue
        if opens:
            stack.append(indent)
            opens = False
        while indent < stack[-1]:
            stack.pop()
        if indent > stack[-1]:
            if name:
                end = number
                part = re.match(r"(pub )?([\w'\-]+) :", text)
                if is_type and indent == depth + 2 and part:
                    names.append(part[2])
            continue
        if text.startswith("module ") or text.endswith("mutual"):
            close()
            name = None
            opens = text.endswith(("where", "mutual"))
            in_head = not opens
            continue
        prefix = PREFIX.match(text)[0]
        first = re.match(r"[^\s({:=]*", text[len(prefix) :])[0]
        is_equation = not prefix and first == name and not re.match(r"[^\s({:=]+\s*:(\s|$)", text)
        if name and (is_equation or text.startswith(("unfolding ", "}", ")", "]"))):
            end = number
            continue
        close()
        is_type = "record " in prefix or "data " in prefix
        name, names, start, end, depth = first, [first], number, number, indent
    close()
    return found


def main():
    os.chdir(TOP)
    paths = [p for p in sorted(glob.glob("crates/*/*/**/*.antt", recursive=True)) if "/out/" not in p]
    code = sorted(glob.glob("crates/*/src/**/*.rt", recursive=True))
    lines = {p: open(p, encoding="utf8").read().split("\n") for p in paths + code}
    imported, aliased, handed = {}, collections.defaultdict(list), {}
    places = {}  # file -> word -> the lines that have it
    for path in paths + code:
        names, aliases, on = imports_of(lines[path])
        for local, origin in names.items():
            imported.setdefault(origin, set()).add((path, local))
        for alias, module in aliases.items():
            aliased[module].append((path, alias))
        if path.endswith(".antt"):
            handed.update({(module_of(path), local): origin for local, origin in on.items()})
        words = places[path] = collections.defaultdict(set)
        for number, line in enumerate(lines[path], 1):
            if not re.match(r"\s*((pub |ghost )*use |--|//)", line):
                for word in WORD.findall(re.sub(r"\s--.*", "", line)):
                    words[word].add(number)
    for (module, local), origin in list(handed.items()):
        for step in range(8):
            imported.setdefault(origin, set()).update(imported.get((module, local), ()))
            origin = handed.get(origin)
            if origin is None:
                break
    # an attribute of code names a lemma by its path, `_` for `-`
    paths_in_code = {
        pair for p in code for pair in re.findall(r"(?=::(\w+)::(\w+)\b)", "\n".join(lines[p]))
    }
    words_in_code = {p: set(re.findall(r"[\w']+", "\n".join(lines[p]))) for p in code}
    candidates = []
    for path in paths:
        parts = path.split("/")
        is_answer = parts[2] == "proofs" and len(parts) > 4
        if not is_answer and parts[-1] != "Lib.antt" and not OWN_SAKE.search(path):
            candidates += [u for u in units_of(path, lines[path]) if "◌" not in u.name]
    gone = collections.defaultdict(set)

    def is_in(path, word, within=()):
        lines_with = places[path].get(word, ())
        return any(n not in within and n not in gone[path] for n in lines_with)

    def is_qualified(path, alias, name):
        return any(
            n not in gone[path] and f"{alias}.{name}" in lines[path][n - 1]
            for n in places[path].get(name, ())
        )

    def is_used(unit):
        module, within = module_of(unit.path), range(unit.start, unit.end + 1)
        for name in unit.names:
            in_code = name.replace("-", "_")
            if is_in(unit.path, name, within):
                return True
            for path, local in imported.get((module, name), ()):
                if path in words_in_code or is_in(path, local):
                    return True
            for path, alias in aliased[module]:
                if path in words_in_code:
                    if {name, in_code} & words_in_code[path]:
                        return True
                elif is_qualified(path, alias, name):
                    return True
            if (module.split(".")[-1], in_code) in paths_in_code:
                return True
        return False

    unused, kept = [], candidates
    while True:
        new = [unit for unit in kept if not is_used(unit)]
        if not new:
            break
        unused += new
        ids = {id(unit) for unit in new}
        kept = [unit for unit in kept if id(unit) not in ids]
        for unit in new:
            gone[unit.path].update(range(unit.start, unit.end + 1))
    for unit in sorted(unused, key=lambda u: (u.path, u.start)):
        print(f"{unit.path}:{unit.start}: {unit.name} is used nowhere")
    return int(bool(unused))


if __name__ == "__main__":
    sys.exit(main())
