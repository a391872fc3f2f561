"""Interpreters that unwind, jump, tell or ask vectored handlers wrongly, each by one rule."""
from interpreter import Machine
from states import Ended, Jump, Record, Scope, Unwinding
from syntax import INT
from values import converted
from wrong import function_of, mutation, put_back, scalars


# unwinding


@mutation
class BlocksAreSkipped(Machine):
    """no __finally block runs for an exception"""

    def finally_statement(self, statement, scope):
        left_by = self.guarded(statement, scope)
        if not isinstance(left_by, Unwinding):
            self.run(statement[2], Scope(scope, abnormal=self.is_abnormal(left_by)))
        if left_by is not None:
            raise left_by


@mutation
class BlocksAreSkippedByJumps(Machine):
    """no __finally block runs for return, break and continue"""

    def finally_statement(self, statement, scope):
        left_by = self.guarded(statement, scope)
        if not isinstance(left_by, Jump):
            self.run(statement[2], Scope(scope, abnormal=self.is_abnormal(left_by)))
        if left_by is not None:
            raise left_by


@mutation
class BlocksAtTheEndAreSkipped(Machine):
    """no __finally block runs at the normal end of its section"""

    def finally_statement(self, statement, scope):
        left_by = self.guarded(statement, scope)
        if left_by is not None:
            self.run(statement[2], Scope(scope, abnormal=True))
            raise left_by


@mutation
class BlocksRunTwice(Machine):
    """each __finally block of an unwinding runs twice"""

    def finally_statement(self, statement, scope):
        left_by = self.guarded(statement, scope)
        for _ in range(2 if isinstance(left_by, Unwinding) else 1):
            self.run(statement[2], Scope(scope, abnormal=self.is_abnormal(left_by)))
        if left_by is not None:
            raise left_by


@mutation
class BlocksBeforeFilters(Machine):
    """__finally blocks run while filters are still asked"""

    def __init__(self, text):
        super().__init__(text)
        self.done = []

    def sections(self, record):
        section = self.section
        while section is not None:
            if section.statement[0] == "except":
                yield section
            else:
                self.done.append((section.statement, section.scope))
                inner, self.section = self.section, section.outer
                self.run(section.statement[2], Scope(section.scope, abnormal=True))
                self.section = inner
            section = section.outer

    def finally_statement(self, statement, scope):
        left_by = self.guarded(statement, scope)
        if isinstance(left_by, Unwinding) and (statement, scope) in self.done:
            raise left_by
        self.run(statement[2], Scope(scope, abnormal=self.is_abnormal(left_by)))
        if left_by is not None:
            raise left_by


@mutation
class StopsLate(Machine):
    """the __finally block straight around the accepting statement runs before its __except block"""

    def landed(self, statement, scope, unwinding):
        around = self.section
        if around is not None and around.statement[0] == "finally":
            self.run(around.statement[2], Scope(around.scope, abnormal=True))
        super().landed(statement, scope, unwinding)


@mutation
class StopsEarly(Machine):
    """the __finally block straight inside of the accepting statement doesn't run"""

    def finally_statement(self, statement, scope):
        left_by = self.guarded(statement, scope)
        if isinstance(left_by, Unwinding) and left_by.target is self.section:
            raise left_by
        self.run(statement[2], Scope(scope, abnormal=self.is_abnormal(left_by)))
        if left_by is not None:
            raise left_by


@mutation
class AnotherActivation(Machine):
    """the unwinding goes to the innermost activation of the accepting function"""

    def target(self, section):
        found = self.section
        while found.statement is not section.statement:
            found = found.outer
        return found


@mutation
class LocalsOfTheBegin(Machine):
    """an __except block finds the locals as they were where its section began"""

    def guarded(self, statement, scope):
        outer, self.found = getattr(self, "found", None), scalars(self, scope)
        try:
            return super().guarded(statement, scope)
        finally:
            self.found = outer

    def landed(self, statement, scope, unwinding):
        put_back(self, self.found)
        return super().landed(statement, scope, unwinding)


@mutation
class BlockChangesAreLost(Machine):
    """what a __finally block of an unwinding assigns to locals is lost"""

    def finally_statement(self, statement, scope):
        left_by = self.guarded(statement, scope)
        found = scalars(self, scope) if isinstance(left_by, Unwinding) else []
        self.run(statement[2], Scope(scope, abnormal=self.is_abnormal(left_by)))
        put_back(self, found)
        if left_by is not None:
            raise left_by


# more than one exception


@mutation
class OlderUnwindingGoesOn(Machine):
    """after an exception in a __finally block the older unwinding goes on"""

    def finally_statement(self, statement, scope):
        left_by = self.guarded(statement, scope)
        try:
            self.run(statement[2], Scope(scope, abnormal=self.is_abnormal(left_by)))
        except Unwinding as newer:
            raise left_by or newer
        if left_by is not None:
            raise left_by


@mutation
class InterruptedBlockRunsAgain(Machine):
    """a __finally block that raised runs again for the newer exception"""

    def finally_statement(self, statement, scope):
        left_by = self.guarded(statement, scope)
        block = Scope(scope, abnormal=self.is_abnormal(left_by))
        try:
            self.run(statement[2], block)
        except Unwinding:
            self.run(statement[2], block)
            raise
        if left_by is not None:
            raise left_by


@mutation
class NewerAsksInside(Machine):
    """an exception in a __finally block is searched for from the older one's point"""

    def ask_filters(self, record):
        self.raised_in = self.section
        return super().ask_filters(record)

    def finally_statement(self, statement, scope):
        left_by = self.guarded(statement, scope)
        outer = self.section
        if isinstance(left_by, Unwinding):
            self.section = self.raised_in
        try:
            self.run(statement[2], Scope(scope, abnormal=self.is_abnormal(left_by)))
        finally:
            self.section = outer
        if left_by is not None:
            raise left_by


@mutation
class NestedAsksOutside(Machine):
    """an exception in a filter is searched for from around the filter's statement"""

    def answer(self, section, record):
        inner, self.section = self.section, section.outer
        try:
            return super().answer(section, record)
        finally:
            self.section = inner


@mutation
class NestedIsDropped(Machine):
    """a filter that raises answers 0"""

    def answer(self, section, record):
        inner, self.section = self.section, None
        try:
            return super().answer(section, record)
        except Ended:
            return 0
        finally:
            self.section = inner


@mutation
class CodeIsZero(Machine):
    """GetExceptionCode is 0 in an __except block"""

    def landing_code(self, record):
        return 0


@mutation
class CodeOfTheLast(Machine):
    """GetExceptionCode is the code of the last exception of all"""

    def throw(self, record):
        self.last = record
        super().throw(record)

    def service_GetExceptionCode(self, arguments, scope):
        return super().service_GetExceptionCode(arguments, scope)[0], self.last.code


@mutation
class CodeIsSigned(Machine):
    """GetExceptionCode is a signed number"""

    def service_GetExceptionCode(self, arguments, scope):
        code = super().service_GetExceptionCode(arguments, scope)[1]
        return ("number", 64, True), converted(INT, code)


# jumps and flags


@mutation
class FlagOfExceptionsIsZero(Machine):
    """AbnormalTermination is 0 for an exception"""

    def is_abnormal(self, left_by):
        return isinstance(left_by, Jump)


@mutation
class FlagOfJumpsIsZero(Machine):
    """AbnormalTermination is 0 for return, break and continue"""

    def is_abnormal(self, left_by):
        return isinstance(left_by, Unwinding)


@mutation
class FlagOfEndsIsOne(Machine):
    """AbnormalTermination is 1 at the normal end of a section"""

    def is_abnormal(self, left_by):
        return True


@mutation
class FlagOfLeaveIsOne(Machine):
    """AbnormalTermination is 1 after __leave"""

    is_left = False

    def run_leave(self, node, scope):
        self.is_left = True
        super().run_leave(node, scope)

    def is_abnormal(self, left_by):
        is_left, self.is_left = self.is_left, False
        return is_left or super().is_abnormal(left_by)


@mutation
class FlagOfTheSecondIsZero(Machine):
    """AbnormalTermination is 0 in all blocks that a jump runs but the first"""

    def is_abnormal(self, left_by):
        is_second = getattr(left_by, "is_seen", False)
        if isinstance(left_by, Jump):
            left_by.is_seen = True
        return super().is_abnormal(left_by) and not is_second


@mutation
class LeaveGoesFurther(Machine):
    """__leave ends the section around its own, too"""

    def run_leave(self, node, scope):
        outer = self.section.outer
        if outer and function_of(self, outer.scope) is function_of(self, scope):
            self.further = outer
        super().run_leave(node, scope)

    further = None

    def guarded(self, statement, scope):
        left_by = super().guarded(statement, scope)
        if self.further is not None and self.section is self.further:
            self.further = None
            return Jump("leave")
        return left_by


@mutation
class LeaveRaises(Machine):
    """__leave asks the filter of its section"""

    def run_leave(self, node, scope):
        if self.section.statement[0] == "except":
            self.answer(self.section, Record(0))
        super().run_leave(node, scope)


@mutation
class ReturnValueComesLast(Machine):
    """the value of a return is evaluated after the blocks"""

    def run_return(self, node, scope):
        raise Jump("return", (node[1], scope))

    def returned(self, jump):
        if isinstance(jump.value, tuple):
            node, scope = jump.value
            return self.value(node, scope)[1] if node else 0
        return jump.value


@mutation
class ContinueIsBreak(Machine):
    """continue out of a section leaves the loop"""

    def run_continue(self, node, scope):
        section = self.section
        is_inside = section and function_of(self, section.scope) is function_of(self, scope)
        raise Jump("break" if is_inside else "continue")


# records


@mutation
class KindIsSwapped(Machine):
    """the first parameter of a refused access is 1 for a read, 0 for a write"""

    def violation(self, address, right):
        return super().violation(address, 3 - right)


@mutation
class AddressOfThePage(Machine):
    """the second parameter of a refused access is the address of its page"""

    def violation(self, address, right):
        return super().violation(address & -4096, right)


@mutation
class WithoutParameters(Machine):
    """a refused access has no parameters"""

    def violation(self, address, right):
        return Record(0xC0000005)


@mutation
class FlagsAreZero(Machine):
    """the flags of the record are 0"""

    def value_of_record(self, node, scope):
        kind, value = super().value_of_record(node, scope)
        return kind, 0 if node[1] == "ExceptionFlags" else value


# vectored handlers


@mutation
class HandlersAreNotAsked(Machine):
    """vectored handlers aren't asked"""

    def ask_handlers(self, record):
        return 0


@mutation
class HandlersOfTheFirst(Machine):
    """vectored handlers aren't asked about an exception in a filter, a block or a handler"""

    is_first = True

    def ask(self, record):
        is_first, self.is_first = self.is_first, False
        try:
            if is_first:
                return super().ask(record)
            return self.ask_filters(record)
        finally:
            self.is_first = is_first


@mutation
class HandlersBackward(Machine):
    """vectored handlers are asked from the last on"""

    def ask_handlers(self, record):
        self.handlers.reverse()
        answer = super().ask_handlers(record)
        self.handlers.reverse()
        return answer


@mutation
class HandlersForEachFilter(Machine):
    """vectored handlers are asked before each filter"""

    def answer(self, section, record):
        self.ask_handlers(record)
        return super().answer(section, record)


@mutation
class HandlersDoNotContinue(Machine):
    """the answer of a vectored handler changes nothing"""

    def ask_handlers(self, record):
        for name in list(self.handlers):
            self.call(name, [record.code, record.flags & 1])
        return 0


@mutation
class HandlersStay(Machine):
    """a vectored handler that was removed is asked"""

    def service_RemoveVectoredExceptionHandler(self, arguments, scope):
        return INT, int(arguments[0][1] in self.handlers)
