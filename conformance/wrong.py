"""What the wrong interpreters share: their list, and what they ask of a scope."""
from values import size_of

MUTATIONS = []


def mutation(machine):
    MUTATIONS.append(machine)
    return machine


def function_of(machine, scope):
    """The outermost scope of the function that a scope is in."""
    while scope.outer is not machine.scope:
        scope = scope.outer
    return scope


def scalars(machine, scope):
    """The local variables of the function that are no arrays, with their values."""
    found = []
    while scope is not machine.scope:
        for kind, address, is_array in scope.names.values():
            if not is_array:
                found.append((address, size_of(kind), machine.memory.read(address, size_of(kind))))
        scope = scope.outer
    return found


def put_back(machine, found):
    for address, size, value in found:
        machine.memory.write(address, size, value)
