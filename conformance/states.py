"""What leaves a statement of a program, and what is live while one runs."""


class Jump(Exception):
    """return, break, continue or leave, on its way out."""

    def __init__(self, kind, value=None):
        self.kind, self.value = kind, value


class Unwinding(Exception):
    """An accepted exception on its way to the section that accepted it."""

    def __init__(self, target, code):
        self.target, self.code = target, code


class Ended(Exception):
    """An exception that nobody accepted."""

    def __init__(self, code):
        self.code = code


class Record:
    """What there is to say of an exception."""

    def __init__(self, code, flags=0, parameters=()):
        self.code, self.flags, self.parameters = code, flags, parameters


class Section:
    """A guarded section that is live, and the one around it."""

    def __init__(self, outer, statement, scope):
        self.outer, self.statement, self.scope = outer, statement, scope


class Scope:
    """The names of a block; of a filter and of the two kinds of blocks also what they may ask."""

    def __init__(self, outer, record=None, abnormal=None):
        self.outer, self.names = outer, {}
        self.record, self.abnormal = record, abnormal

    def find(self, wanted):
        scope = self
        while scope is not None:
            found = wanted(scope)
            if found is not None:
                return found
            scope = scope.outer
        raise NameError("no such name here")
