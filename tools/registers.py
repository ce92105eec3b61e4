"""What is known of the registers on a way through a function of x86-64, and how each instruction changes that.

A value is a tuple. ("stack", 0, 0, n) is n bytes above where the stack pointer was when the function began; ("stack", a, b, n) is
n bytes above where the instruction at a had aligned it to, which is at most b bytes below that. ("number", n) is a number,
("address", a) one in the program, ("entry", a) was read from the table of jumps at a, and ("target", s) is where such an entry
of one of the tables s leads. What isn't known isn't kept.
"""
import functools
import re

STACK = "rsp"
START = ("stack", 0, 0, 0)
CALLER_SAVED = ("rax", "rcx", "rdx", "rsi", "rdi", "r8", "r9", "r10", "r11")
# What instructions that aren't plain may change without naming it.
HIDDEN = ("rax", "rbx", "rcx", "rdx", "rsi", "rdi", "r11")
NAMES = {}
for _letter in "abcd":
    NAMES.update(dict.fromkeys((f"r{_letter}x", f"e{_letter}x", f"{_letter}x", f"{_letter}l", f"{_letter}h"), f"r{_letter}x"))
for _name in ("si", "di", "bp", "sp"):
    NAMES.update(dict.fromkeys((f"r{_name}", f"e{_name}", _name, f"{_name}l"), f"r{_name}"))
for _number in range(8, 16):
    NAMES.update(dict.fromkeys((f"r{_number}{size}" for size in ("", "d", "w", "b")), f"r{_number}"))
HALVES = {name for name in NAMES if re.fullmatch(r"e..|r\d+d", name)}
# Instructions that change their last operand and nothing else, or nothing at all.
PLAIN = re.compile(r"mov|cmov|set|add|sub|adc|sbb|and|or|xor|not|neg|inc|dec|sh[lr]|sa[lr]|ro[lr]|lea|bt|bs[fr]|[tl]zcnt|popcnt|"
                   r"bswap|nop|endbr|test|cmp(?!xchg)|u?comis|cvt|p(?!op|ush|cmp.str)|unpck|imul.*,")
READ_ONLY = re.compile(r"test|cmp(?!xchg)|bt[wlq]?$|nop|endbr|u?comis")
FLAGS_STAY = ("mov", "lea", "push", "pop", "nop", "set", "cmov")
OPERAND = re.compile(r"[^,(]*\([^)]*\)|[^,]+")
IMMEDIATE = re.compile(r"^\$(-?0x[0-9a-f]+)$")
DISTANCE = re.compile(r"^(-?0x[0-9a-f]+)?\(%(r\w+)\)$")
ENTRY = re.compile(r"^(?:0x0)?\(%(r\w+),%r\w+,4\)$")
POINTED = re.compile(r"# ([0-9a-f]+) <")
DECIDED = {"e": lambda d: d == 0, "ne": lambda d: d != 0, "l": lambda d: d < 0, "b": lambda d: d < 0, "ge": lambda d: d >= 0,
           "ae": lambda d: d >= 0, "g": lambda d: d > 0, "a": lambda d: d > 0, "le": lambda d: d <= 0, "be": lambda d: d <= 0}


def number(text):
    """A number as objdump writes it, between -2^63 and 2^63."""
    found = int(text, 16)
    return found - (1 << 64) if found >> 63 == 1 else found


@functools.lru_cache(maxsize=None)
def parts(text):
    """The word of an instruction, its operands, and whether it is plain."""
    word, _, rest = text.partition(" ")
    operands = [part.strip() for part in OPERAND.findall(rest.partition("#")[0].partition("<")[0])]
    is_plain = bool(PLAIN.match(word + rest if word == "imul" else word)) and "%es:" not in rest
    return word, [part for part in operands if part], is_plain


class Known:
    """What is known at an instruction: values by registers, and by how much the two sides of the last comparison differ."""

    def __init__(self, values=None, differ=None):
        self.values = {STACK: START} if values is None else values
        self.differ = differ

    def copy(self):
        return Known(dict(self.values), self.differ)

    def meet(self, other):
        """What is known here and there; None where that is all that was known here."""
        values = {name: met(value, other.values.get(name)) for name, value in self.values.items()}
        values = {name: value for name, value in values.items() if value is not None}
        differ = self.differ if self.differ == other.differ else None
        return None if values == self.values and differ == self.differ else Known(values, differ)

    def of(self, operand):
        """The value of a whole register or of a number."""
        if operand.startswith("%"):
            value = self.values.get(NAMES.get(operand[1:]))
            is_half = operand[1:] in HALVES and value is not None and value[0] == "number" and 0 <= value[1] < 1 << 32
            return value if is_half or operand[1:] in self.values else None
        fixed = IMMEDIATE.match(operand)
        return ("number", number(fixed[1])) if fixed else None

    def set(self, operand, value):
        """Gives a register, or a part of one, a value, or makes it unknown; an operand of memory changes nothing."""
        name = NAMES.get(operand[1:]) if operand.startswith("%") else None
        if name is None:
            return
        self.values.pop(name, None)
        is_half = value is not None and operand[1:] in HALVES and value[0] == "number" and 0 <= value[1] < 1 << 32
        if value is not None and (operand[1:] == name or is_half):
            self.values[name] = value

    def forget(self, names):
        """Makes these registers, and the comparison, unknown."""
        self.differ = None
        for name in names:
            self.values.pop(name, None)

    def is_taken(self, condition):
        """Whether a conditional jump is taken, or None where that isn't known."""
        return DECIDED[condition](self.differ) if self.differ is not None and condition in DECIDED else None


def met(one, other):
    """What is known of a value that is one or the other: where both lead on by tables, it leads on by one of these."""
    if one[0] == "target" and other is not None and other[0] == "target":
        return "target", one[1] | other[1]
    return one if one == other else None


def depth(value):
    """How many bytes below the start an address on the stack is at most."""
    return value[2] - value[3]


def shifted(value, by):
    """An address on the stack, or a number, and so much more."""
    return (*value[:-1], value[-1] + by) if value is not None and by is not None and value[0] in ("stack", "number") else None


def sum_of(one, other):
    """One value and another."""
    if one is None or other is None:
        return None
    if {one[0], other[0]} == {"entry", "address"} and one[1] == other[1]:
        return "target", frozenset([one[1]])
    one, other = (other, one) if one[0] == "number" else (one, other)
    return shifted(one, other[1]) if other[0] == "number" else None


def masked(value, mask, address):
    """What an instruction makes of a number, or of the stack pointer that it aligns: the lowest address that it may be."""
    if value is None or mask is None or mask[0] != "number":
        return None
    if value[0] == "number":
        return "number", value[1] & mask[1]
    return ("stack", address, depth(value) - mask[1], 0) if value[0] == "stack" and mask[1] < 0 else None


def written(known, text, word, operands, address):
    """The value that a plain instruction gives its last operand."""
    first, last = known.of(operands[0]), known.of(operands[-1])
    if word in ("mov", "movq", "movabs"):
        return first
    if word == "lea":
        pointed, near = POINTED.search(text), DISTANCE.match(operands[0])
        if pointed and "(%rip)" in operands[0]:
            return "address", int(pointed[1], 16)
        return shifted(known.values.get(near[2]), number(near[1] or "0x0")) if near else None
    if word == "movslq":
        table = ENTRY.match(operands[0])
        base = known.values.get(table[1]) if table else None
        return ("entry", base[1]) if base and base[0] == "address" else None
    if word == "add":
        return sum_of(last, first)
    if word == "sub":
        return shifted(last, -first[1] if first and first[0] == "number" else None)
    name = operands[0][1:]
    if word == "xor" and operands[0] == operands[-1] and (name in HALVES or name == NAMES.get(name)):
        return "number", 0
    return masked(last, first, address) if word == "and" else None


def compared(known, operands):
    """By how much the sides of a comparison differ, where both are addresses on the stack from one place."""
    one, other = known.of(operands[1]), known.of(operands[0])
    return one[-1] - other[-1] if one and other and one[0] == "stack" and one[:-1] == other[:-1] else None


def follow(known, text, address):
    """Changes what is known to what is behind an instruction that is no call and no jump."""
    word, operands, is_plain = parts(text)
    differ = known.differ if word.startswith(FLAGS_STAY) else None
    if word.startswith("push"):
        known.set("%rsp", shifted(known.values.get(STACK), -8))
    elif word.startswith("pop") and word != "popcnt":
        known.set("%rsp", shifted(known.values.get(STACK), 8))
        known.set(operands[0], None)
    elif word == "leave":
        known.set("%rsp", shifted(known.values.get("rbp"), 8))
        known.set("%rbp", None)
    elif not is_plain:
        known.forget((*HIDDEN, *((STACK,) if word.startswith("enter") else ())))
        for operand in operands:
            known.set(operand, None)
    elif READ_ONLY.match(word):
        differ = compared(known, operands) if word.startswith("cmp") else None
    elif operands:
        known.set(operands[-1], written(known, text, word, operands, address))
    known.differ = differ
