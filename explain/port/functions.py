"""Rules of a port on functions: prototypes, `main`, `static` variables, casts to void."""
from ..structure import STATEMENT_ENDS, Structure
from ..tokens import pairs, words
from .arrays import edited
from .words import without


def prototypes(tokens):
    """Drops prototypes, and each `;` outside functions that ends nothing."""
    structure, dropped = Structure(tokens), set()
    for first, end in structure.prototypes:
        if structure.base_end(first) > first or tokens[first].text == "extern":
            dropped.update(range(first, end + 1))
    for first, end in structure.externals:
        if first == end:
            dropped.add(first)
    return without(tokens, dropped)


def main_without_words(tokens):
    """`int main(void)` of a `main` that doesn't use its parameters, and of `void main`."""
    structure = Structure(tokens)
    for function in structure.functions:
        if tokens[function.name].text not in ("main", "wmain"):
            continue
        names = [part[-1].text for part in structure.parameters(function) if part]
        names += [t.text for part in structure.parameters(function) for t in part[1:]]
        names = {n for n in names if n.isidentifier()}
        body = structure.texts(function.body, function.end)
        if len(structure.parameters(function)) > 1 and not names & set(body):
            inside = words("void", tokens[function.opening + 1])
            inside[0].before = ""
            tokens[function.opening + 1 : function.closing] = inside
        if tokens[function.first].text == "void":
            tokens[function.first].text = "int"
            for i in range(function.body, function.end):
                if tokens[i].text == "return" and tokens[i + 1].text == ";":
                    tokens[i].text = "return 0"
        return tokens
    return tokens


def casts_to_void(tokens):
    """`(void)e;` as `e;`."""
    dropped = set()
    for i in range(1, len(tokens) - 3):
        is_cast = [t.text for t in tokens[i : i + 3]] == ["(", "void", ")"]
        if is_cast and tokens[i - 1].text in STATEMENT_ENDS:
            dropped.update((i, i + 1, i + 2))
    return without(tokens, dropped)


def static_locals(tokens):
    """A `static` variable of a function as a global before it, named by both."""
    structure, edits = Structure(tokens), []
    found = {it.first: it for it in structure.declarations if is_static_local(tokens, it)}
    if not found:
        return tokens
    for function in structure.functions:
        rename(tokens, function, found)
    for it in found.values():
        moved = tokens[it.first : it.end + 1]
        following, first = tokens[it.end + 1], tokens[it.function.first]
        # the comments before the declaration stay where it was
        following.before = tokens[it.first - 1].before.rstrip() + following.before
        moved[0].before, first.before = first.before, "\n"
        edits.append((it.function.first, it.function.first, moved))
        edits.append((it.first - 1, it.end + 1, []))
    return edited(tokens, edits)


def is_static_local(tokens, it):
    return it.function and it.first and tokens[it.first - 1].text == "static"


def rename(tokens, function, found):
    """Gives the names of a function's `static` variables the function's in front, each from its
    declaration to the end of its block."""
    prefix, scopes = tokens[function.name].text + "_", [set()]
    for i in range(function.body, function.end):
        token = tokens[i]
        if token.text == "{":
            scopes.append(set())
        elif token.text == "}":
            scopes.pop()
        if i in found:
            scopes[-1].update(one.name.text for one in found[i].declarators)
        is_member = tokens[i - 1].text in (".", "->")
        if token.kind == "name" and not is_member and any(token.text in names for names in scopes):
            token.text = prefix + token.text


def exits(tokens):
    """`exit(n)` and `ExitProcess(n)` in `main` as `return n`."""
    structure, close = Structure(tokens), pairs(tokens)
    dropped = set()
    for function in structure.functions:
        if tokens[function.name].text != "main":
            continue
        for i in range(function.body, function.end - 1):
            is_exit = tokens[i].text in ("exit", "ExitProcess") and tokens[i + 1].text == "("
            if is_exit and tokens[i - 1].text in STATEMENT_ENDS | {")", "else"}:
                tokens[i].text = "return"
                last = close[i + 1]
                dropped.update((i + 1, last))
                tokens[i + 2].before = " "
    return [token for i, token in enumerate(tokens) if i not in dropped]
