"""Reads off the machine code of a program how much stack each of its functions takes, and whom it calls.

Each way through a function is gone from its first instruction on, and with it goes what is known of each register: how far it is
from where the stack pointer was at the start, that it is a number, or an address in a table of jumps. So what an instruction does
to the stack pointer is known, or the function is told as one that can't be read. All instructions are of x86-64. A call is taken
to give back the registers that calls give back (rbx, rbp, r12 to r15); that the stack pointer comes back is looked at in each
function that is read.
"""
import re
import struct
import subprocess

from command import PROGRAM, refuse
from registers import CALLER_SAVED, START, STACK, Known, depth, follow

ADDRESS = 8
MOST_PLACES = 1_024  # of the stack pointer at one instruction, before a function is told as one that can't be read
BEGIN = re.compile(r"^([0-9a-f]+) <(.+)>:$")
POINTED = re.compile(r"^lea .*# ([0-9a-f]+) <")
DIRECT = re.compile(r"^(call|j[a-z]+) +([0-9a-f]+) <")
BELOW = re.compile(r"-(0x[0-9a-f]+)\(%rsp[,)]")
INDIRECT = re.compile(r"^jmp +\*%(\w+)$")
PREFIX = re.compile(r"^((bnd|notrack|data16|cs|lock|repz?|repn[ez]) +)+")
# What may stand where no way leads: between functions, and behind a call that doesn't come back.
PADDING = ("nop", "int3", "ud2", "xchg   %ax,%ax", "hlt")
# Instructions that go on elsewhere, or return more than an address: no compiler is known to write them.
UNREAD = re.compile(r"loop|xbegin|iret|sysret|l?ret[a-z]* +\$|lret|ljmp|lcall")


class Function:
    """A function of the program: the bytes that it takes of the stack, whom it calls, whose addresses it takes, and what of it
    can't be read."""

    def __init__(self, calls=(), size=ADDRESS):
        self.bytes = size
        self.calls, self.points, self.unknown = set(calls), set(), []
        self.makes_threads = False


class Image:
    """The bytes of the program as they stand in memory."""

    def __init__(self, path):
        with open(path, "rb") as file:
            self.data = file.read()
        start, size, count = (struct.unpack_from(form, self.data, at)[0] for form, at in (("<Q", 32), ("<H", 54), ("<H", 56)))
        self.parts = []
        for at in range(start, start + size * count, size):
            kind, _, offset, address, _, held = struct.unpack_from("<IIQQQQ", self.data, at)
            self.parts += [(address, address + held, offset)] if kind == 1 else []

    def number(self, address):
        """The number of four bytes at an address, or None where there is none."""
        for begin, end, offset in self.parts:
            if begin <= address <= end - 4:
                return struct.unpack_from("<i", self.data, offset + address - begin)[0]
        return None


class Code:
    """The instructions of a program: each by its address, with the function that it is of and the instruction behind it."""

    def __init__(self, text, image):
        self.words, self.of, self.behind, self.begins, self.image = {}, {}, {}, {}, image
        self.leaders = set()  # where ways may meet
        name, last, names = "", None, set()
        for line in text.splitlines():
            begin = BEGIN.match(line) if not line.startswith(" ") else None
            if begin:
                address, last = int(begin[1], 16), None
                name = begin[2] if begin[2] not in names else f"{begin[2]} at {address:x}"
                self.begins[address] = name
                names.add(name)
            elif line.startswith(" "):
                at, _, words = line.partition(":\t")
                address = int(at, 16)
                words = PREFIX.sub("", words.strip())
                self.words[address], self.of[address] = words, name
                if last is not None:
                    self.behind[last] = address
                last = address
                direct = DIRECT.match(words)
                if direct:
                    self.leaders.add(int(direct[2], 16))

    def stays(self, address, name):
        """Whether a jump from the function to this address stays in it, or in the part of it that the compiler moved away."""
        to = self.of.get(address, "")
        return to == name or to.partition(" at ")[0].endswith(".cold")

    def table(self, start, name):
        """The addresses in a table of jumps: as many as stay in the function. Where nothing leads, a table may have 0."""
        found, at = set(), start
        while (entry := self.image.number(at)) is not None and (entry == 0 or self.stays(start + entry, name)):
            found |= {start + entry} if entry else set()
            at += 4
        return found


class Reading:
    """How a function is read: way by way, with what is known where ways meet by the place of the stack pointer."""

    def __init__(self, code, start):
        self.code, self.name, self.function = code, code.of[start], Function()
        self.seen, self.passed, self.met = set(), set(), {}
        self.work = [(start, Known())]
        while self.work:
            address, known = self.work.pop()
            while address is not None:
                address, known = self.step(address, known)

    def refuse(self, address, why=""):
        """Notes an instruction that can't be read."""
        self.function.unknown.append(why + self.code.words[address])

    def arrive(self, address, known):
        """What is known where ways meet, or None where that is no less than was known before."""
        places, place = self.met.setdefault(address, {}), known.values[STACK]
        if place in places:
            known = places[place].meet(known)
        elif len(places) >= MOST_PLACES:
            known = self.refuse(address, "a stack pointer that goes on and on: ")
        if known is not None:
            places[place] = known.copy()
        return known

    def step(self, address, known):
        """Reads an instruction; the one behind it, if the way goes on there, and what is known there."""
        if address in self.code.leaders:
            known = self.arrive(address, known)
            if known is None:
                return None, None
        self.seen.add(address)
        words, function, behind = self.code.words[address], self.function, self.code.behind.get(address)
        below = BELOW.search(words) if "-0x" in words and not words.startswith("lea") else None
        function.bytes = max(function.bytes, ADDRESS + depth(known.values[STACK]) + (int(below[1], 16) if below else 0))
        if UNREAD.match(words):
            go_on = self.refuse(address)
        elif words.startswith(("j", "call")):
            direct = DIRECT.match(words)
            go_on = self.jump(address, known, direct[1], int(direct[2], 16)) if direct else self.by_pointer(address, known)
        elif words.startswith("ret"):
            if known.values[STACK] != START:
                self.refuse(address, f"{depth(known.values[STACK]):,} bytes that stay: ")
            go_on = False
        else:
            go_on = self.plain(address, known, words)
        if go_on and behind is None and not words.startswith("call"):
            self.refuse(address, "a way out of the function: ")
        return behind if go_on else None, known

    def plain(self, address, known, words):
        """Reads an instruction that is no jump; whether the way goes on."""
        pointed = POINTED.match(words)
        if pointed and int(pointed[1], 16) in self.code.begins:
            self.function.points.add(self.code.begins[int(pointed[1], 16)])
        if words.startswith(("ud2", "hlt", "int3")):
            return False
        follow(known, words, address)
        if STACK not in known.values or known.values[STACK][0] != "stack":
            self.refuse(address)
            return False
        return True

    def jump(self, address, known, word, to):
        """Reads a call or a jump to a place that the instruction names; whether the way goes on behind it."""
        name, stays = self.code.begins.get(to), self.code.stays(to, self.name)
        if word == "call" or not stays:
            if name is None and to in self.code.words:  # a function that has no name of its own
                name = self.code.begins[to] = f"{self.code.of[to]} from {to:x}"
            if name is None or word != "call" and known.values[STACK] != START:
                self.refuse(address, "a way out of the function: ")
            self.function.calls.add(name)
            self.function.makes_threads |= name == "pthread_create@plt"
        if word == "call":
            known.forget(CALLER_SAVED)
            return True
        taken = known.is_taken(word[1:]) if word != "jmp" else True
        if stays and taken is not False:
            self.work.append((to, known.copy()))
        if word != "jmp" and taken is not None:
            self.pass_over(self.code.behind.get(address) if taken else to)
        return taken is not True

    def pass_over(self, address):
        """Notes the instructions of a way that is known never to be gone, as far as it has no other jumps than those that stay."""
        while address is not None and address not in self.passed and self.code.of.get(address) == self.name:
            self.passed.add(address)
            direct = DIRECT.match(self.code.words[address])
            address = int(direct[2], 16) if direct and direct[1] == "jmp" else self.code.behind.get(address)

    def by_pointer(self, address, known):
        """Reads a call or a jump to a place in a register; whether the way goes on behind it."""
        words = self.code.words[address]
        if "<__libc_start_main" in words:
            return False
        register = INDIRECT.match(words)
        target = known.values.get(register[1]) if register else None
        tables = [self.code.table(start, self.name) for start in target[1]] if target and target[0] == "target" else []
        if not tables or not all(tables):
            self.refuse(address)
        found = set().union(*tables)
        self.code.leaders |= found
        self.work += [(to, known.copy()) for to in found]
        return False


def is_linkage(name):
    """Whether this is no function, but a part by which the linker reaches those of the C library."""
    return "@plt" in name or name.startswith(".plt")


def read_code(code):
    """The functions of a program, by their names. An instruction that no way reaches counts as one that can't be read."""
    functions, reached = {}, set()
    done: set[int] = set()
    while left := code.begins.keys() - done:
        done |= left
        for address in left:
            name = code.begins[address]
            if not is_linkage(name) and ".cold" not in name and address in code.words:
                reading = Reading(code, address)
                functions[name] = reading.function
                reached |= reading.seen | reading.passed
    last = {code.of[address]: address for address in sorted(reached)}
    for address in code.words.keys() - reached:
        name, words = code.of[address], code.words[address]
        # What stands behind all that is reached isn't code: a compiler may put tables and texts there.
        if name.partition(".cold")[0] in functions and address < last.get(name, 0) and not words.startswith(PADDING):
            functions[name.partition(".cold")[0]].unknown.append("no way reaches " + words)
    for function in functions.values():
        function.calls &= functions.keys()
    return functions


def read_program(objdump):
    """The functions of the built program."""
    words = [objdump, "--disassemble", "--no-show-raw-insn", PROGRAM]
    done = subprocess.run(words, capture_output=True, text=True, check=False, timeout=120)
    functions = read_code(Code(done.stdout, Image(PROGRAM))) if not done.returncode else {}
    if not functions:
        refuse(f"{PROGRAM} can't be read by objdump, or has no names of functions")
    return functions
