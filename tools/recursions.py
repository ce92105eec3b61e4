"""Recursions of a program: which functions call themselves or one another, and how much stack that takes."""
from frames import Function


def groups(functions):
    """The strongly connected components of the calls, those first that call no other (Tarjan 1972)."""
    number, low, stack, found = {}, {}, [], []

    def visit(name):
        number[name] = low[name] = len(number)
        stack.append(name)
        for to in sorted(functions[name].calls):
            if to not in number:
                visit(to)
            if to in stack:
                low[name] = min(low[name], low[to])
        if low[name] == number[name]:
            at = stack.index(name)
            found.append(stack[at:])
            del stack[at:]

    for name in functions:
        if name not in number:
            visit(name)
    return found


def heaviest(functions, group, name, end):
    """The bytes of the heaviest way from a function to another, or none. Within the group, without the end, no way comes back."""
    ways = [heaviest(functions, group, to, end) for to in functions[name].calls & group if to != end]
    ways = [way for way in ways if way is not None]
    return functions[name].bytes + max(ways, default=0) if ways or end in functions[name].calls else None


def turn(functions, group):
    """The bytes of the heaviest turn of a recursion: through the one function that each turn goes through, or through all."""
    for name in sorted(group):
        rest = {other: functions[other] for other in group - {name}}
        inner = {}
        for other, function in rest.items():
            inner[other] = Function(function.calls & rest.keys())
        if not any(is_recursion(inner, part) for part in groups(inner)):
            return heaviest(functions, group, name, name)
    return sum(functions[name].bytes for name in group)


def is_recursion(functions, group):
    """Whether functions of the group call themselves or one another."""
    return len(group) > 1 or group[0] in functions[group[0]].calls


def sums(functions, depth_of, told):
    """The greatest stack of each function with all that it calls; `told` gets a row for each recursion: its bytes, those of a
    turn, its depth, a name, and what `depth_of` says of its depth."""
    total = {}
    for group in groups(functions):
        members = set(group)
        below = max((total[to] for name in group for to in functions[name].calls - members), default=0)
        own = functions[group[0]].bytes
        if is_recursion(functions, group):
            found, each = depth_of(group), turn(functions, members)
            depth, why = found or (0, "")
            own = each * (depth + 1)  # the last call may end by the heaviest way without a turn
            told.append((own, each, depth, min(group, key=len), why))
        total.update({name: own + below for name in group})
    return total
