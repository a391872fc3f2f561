"""Interpreters that search, answer or continue wrongly, each by one rule."""
from interpreter import Machine
from states import Ended, Jump, Record, Scope, Unwinding
from values import size_of
from wrong import function_of, mutation, put_back, scalars


# the search


@mutation
class InnermostIsSkipped(Machine):
    """the innermost filter isn't asked"""

    def sections(self, record):
        yield from list(super().sections(record))[1:]


@mutation
class OutermostFirst(Machine):
    """filters are asked from the outermost inward"""

    def sections(self, record):
        yield from list(super().sections(record))[::-1]


@mutation
class EndsAtFinally(Machine):
    """the search ends at a __finally statement"""

    def sections(self, record):
        section = self.section
        while section is not None and section.statement[0] == "except":
            yield section
            section = section.outer


@mutation
class EndsAtCaller(Machine):
    """the search ends at the function that raised, where it has a section"""

    def sections(self, record):
        found = list(super().sections(record))
        here = found and function_of(self, found[0].scope)
        yield from (s for s in found if function_of(self, s.scope) is here)


@mutation
class OneOfAFunction(Machine):
    """of each activation the innermost section alone is asked"""

    def sections(self, record):
        seen = []
        for section in super().sections(record):
            here = function_of(self, section.scope)
            if here not in seen:
                seen.append(here)
                yield section


@mutation
class LeafIsSkipped(Machine):
    """the section around the call of a leaf function isn't asked about the leaf's exception"""

    running = ()

    def call(self, name, values):
        outer, self.running = self.running, (*self.running, name)
        try:
            return super().call(name, values)
        finally:
            self.running = outer

    def sections(self, record):
        is_leaf = "'call'" not in repr(self.functions[self.running[-1]][2])
        yield from list(super().sections(record))[int(is_leaf and len(self.running) > 1):]


@mutation
class LargeFrameIsSkipped(Machine):
    """sections of frames of more than a page aren't asked"""

    def is_large(self, scope):
        while scope is not self.scope:
            if any(is_array and size_of(kind) > 1 for kind, _, is_array in scope.names.values()):
                return True
            scope = scope.outer
        return False

    def sections(self, record):
        yield from (s for s in super().sections(record) if not self.is_large(s.scope))


@mutation
class CallBeforeIsGuarded(Machine):
    """a statement straight before a section is guarded by it"""

    def run_block(self, node, scope):
        inside, found = Scope(scope), list(node[1])
        for at in range(len(found) - 1, 0, -1):
            if found[at][0] in ("except", "finally") and found[at - 1][0] == "expression":
                kind, body, *rest = found[at]
                found[at - 1:at + 1] = [(kind, ("block", [found[at - 1], body]), *rest)]
        for statement in found:
            self.run(statement, inside)


@mutation
class CallAfterIsGuarded(Machine):
    """a statement straight after a section is guarded by it"""

    def run_block(self, node, scope):
        inside, found = Scope(scope), list(node[1])
        for at in range(len(found) - 2, -1, -1):
            if found[at][0] == "except" and found[at + 1][0] == "expression":
                kind, body, *rest = found[at]
                found[at:at + 2] = [(kind, ("block", [body, found[at + 1]]), *rest)]
        for statement in found:
            self.run(statement, inside)


@mutation
class LastIsNotGuarded(Machine):
    """the last statement of a section isn't guarded"""

    def run_except(self, node, scope):
        body = node[1][1]
        if not body or body[-1][0] != "expression" or body[0][0] == "declare":
            return super().run_except(node, scope)
        super().run_except((node[0], ("block", body[:-1]), *node[2:]), scope)
        return self.run(body[-1], scope)


@mutation
class FirstIsNotGuarded(Machine):
    """the first statement of a section isn't guarded"""

    def run_except(self, node, scope):
        body = node[1][1]
        if body and body[0][0] == "expression":
            self.run(body[0], scope)
            node = (node[0], ("block", body[1:]), *node[2:])
        super().run_except(node, scope)


@mutation
class EndAsks(Machine):
    """the filter of a section is evaluated where the section ends, or a jump leaves it"""

    def guarded(self, statement, scope):
        left_by = super().guarded(statement, scope)
        if statement[0] == "except" and not isinstance(left_by, Unwinding):
            self.value(statement[2], Scope(scope, record=Record(0)))
        return left_by


@mutation
class AllIsEvaluated(Machine):
    """all parts of &&, || and ?: are evaluated"""

    def value_of_binary(self, node, scope):
        if node[1] in ("&&", "||"):
            self.value(node[3], scope)
        return super().value_of_binary(node, scope)

    def value_of_choice(self, node, scope):
        self.value(node[2], scope)
        return super().value_of_choice(node, scope)


# answers


@mutation
class ZeroAccepts(Machine):
    """0 accepts"""

    def answer(self, section, record):
        return super().answer(section, record) or 1


@mutation
class ContinuingIsSearching(Machine):
    """-1 asks the next filter"""

    def answer(self, section, record):
        return max(super().answer(section, record), 0)


@mutation
class ContinuingAccepts(Machine):
    """-1 accepts"""

    def answer(self, section, record):
        return abs(super().answer(section, record))


@mutation
class AskedTwice(Machine):
    """each filter is evaluated twice"""

    def answer(self, section, record):
        super().answer(section, record)
        return super().answer(section, record)


@mutation
class FilterOfAnotherActivation(Machine):
    """a filter finds the locals of the innermost activation of its function"""

    def filter_scope(self, section):
        found = self.section
        while found.statement is not section.statement:
            found = found.outer
        return found.scope


@mutation
class FilterChangesAreLost(Machine):
    """what a filter assigns to locals is lost"""

    def answer(self, section, record):
        found = scalars(self, section.scope)
        answer = super().answer(section, record)
        put_back(self, found)
        return answer


@mutation
class RestIsRun(Machine):
    """after the __except block its function returns"""

    def landed(self, statement, scope, unwinding):
        super().landed(statement, scope, unwinding)
        return Jump("return", 0)


# continuing


@mutation
class NoncontinuableGoesOn(Machine):
    """what may not be continued is continued"""

    def may_continue(self, record):
        return True


@mutation
class ReplacementGoesOn(Machine):
    """C0000025 is continuable"""

    def throw(self, record):
        while self.ask(record) < 0:
            if self.may_continue(record):
                return
            record = Record(0xC0000025)
        raise Ended(record.code)


@mutation
class WriteIsNotRepeated(Machine):
    """a continued write isn't made again"""

    def store(self, kind, address, value):
        refused = self.memory.refused(address, size_of(kind), 2)
        super().store(kind, address, value)
        if refused is not None:
            self.memory.write(address, size_of(kind), 0)


@mutation
class DivisionIsNotRepeated(Machine):
    """a continued division gives 0"""

    def division(self, sign, kind, left, right):
        if right != 0:
            return super().division(sign, kind, left, right)
        self.throw(Record(0xC0000094))
        return 0


@mutation
class ContinuingEndsTheSection(Machine):
    """a continued exception goes on behind the section"""

    def throw(self, record):
        super().throw(record)
        if self.section:
            raise Jump("leave")
