#!/usr/bin/env python3
"""Says how many bytes of stack functions of the library need (request 09).

Usage: tools/stack.py [ARCHIVE [ENTRY..]]

An entry NAME is one from which no function calls itself, even through others:
where one does, its cycle is named and the script fails. An entry NAME=N is one
from which there are cycles of calls. Each turn of them enters the same
function, and the caller of this script knows that it is entered at most N
times, the last time with no further turn. With no argument:
target/staticlib/libbogsilver.a bogsilver_walk_flat bogsilver_walk=17, since
the nested walker enters `value` for the payload and in each of 16 levels.

The bytes are those of the deepest chain of calls, with the return addresses
and what is used below the stack pointer (the red zone); each function is
followed along all its ways. Ends with status 1, and says why, where something
cannot be told from the machine code: a call by address, a call of a function
that is not in the archive (but for OUTSIDE, whose own stack is not counted),
a stack pointer that is moved by no constant. What is reached by an address of
the stack that was put into a register is taken to lie in the frame, and the
register with the address of a switch's table to hold what was last put into
it in the order of the code, as compilers see to it. Needs objdump.
"""

import re
import sys
from functools import cache

from machine_code import Code, Place, Unclear

DEFAULTS = ["target/staticlib/libbogsilver.a", "bogsilver_walk_flat",
            "bogsilver_walk=17"]
OUTSIDE = frozenset(("memcpy", "memset", "memcmp", "memmove", "bcmp"))
RETURN_ADDRESS = 8
RED_ZONE = 128
REGISTER = re.compile(r"r(?:[abcd]x|[sd]i|bp|8|9|1[0-5])")
NUMBER = re.compile(r"0x[0-9a-f]+")
STACK_MEMORY = re.compile(r"\[rsp((?:[-+][^-+\]]+)*)\]")
TABLE_ENTRY = re.compile(r"DWORD PTR \[(\w+)\+\w+\*4\]")
NO_RETURN = ("ud2", "hlt", "int3")
READERS = ("mov", "add", "sub", "cmp")
READ_ONLY = ("cmp", "test", "bt", "push")
UNKNOWN = re.compile(
    r"\(bad\)|enter|leave|(?:push|pop).+|ret.+|syscall|sysenter|int|iret.*"
    r"|xbegin|l(?:call|jmp)|far")


def parts(register):
    """The names of a register and of its lower parts."""
    stem = register[1:]
    if stem.isdigit():
        return {register + each for each in ("", "d", "w", "b")}
    return {register, "e" + stem, stem, stem.removesuffix("x") + "l",
            stem[0] + "h"}


def signed(text):
    number = int(text, 16)
    return number - 2**64 if number >= 2**63 else number


class Function:
    """What a function does to the stack, on all ways through it."""

    def __init__(self, code, place):
        self.code, self.place = code, place
        self.name = code.starts[place]
        self.deepest = 0  # bytes below the return address
        self.calls = {}  # the greatest depth at which another one starts
        self.outside = set()
        self.depths = {}
        self.jumps, self.switches = set(), set()  # offsets
        self.follow()

    def unclear(self, why):
        raise Unclear("%s: %s" % (self.name, why))

    def follow(self):
        todo = [(self.place.offset, 0)]
        while todo:
            offset, depth = todo.pop()
            if self.depths.setdefault(offset, depth) != depth:
                self.unclear("two depths at %#x" % offset)
            step = self.code.instructions.get(self.at(offset))
            if not step:
                self.unclear("no instruction at %#x" % offset)
            after = self.moved(step, depth)
            if after < 0:
                self.unclear("%s: above its return address" % step.text)
            self.deepest = max(self.deepest, after, self.below(step, depth))
            for way in self.ways(step, offset, after):
                if way != step.next:
                    self.jumps.add(way)
                if self.depths.get(way) != after:
                    todo.append((way, after))
        if self.jumps & self.switches:
            self.unclear("a jump into a switch")

    def at(self, offset):
        return Place(*self.place[:2], offset)

    # Depths.

    def moved(self, step, depth):
        """The depth after an instruction."""
        word, operands = step.word, step.operands
        if UNKNOWN.fullmatch(word) or word == "ret" and operands or re.search(
                r"\b(?:esp|sp|spl)\b", ",".join(operands)):
            self.unclear(step.text)
        if word in ("push", "pop"):
            return self.pushed(step, depth)
        if operands[:1] == ["rsp"]:
            return depth + self.taken(step)
        if "rsp" in operands and (word not in READERS or operands[0] == "rbp"):
            self.unclear(step.text)
        return depth

    def pushed(self, step, depth):
        operand, = step.operands
        number = step.word == "push" and NUMBER.fullmatch(operand)
        memory = operand.startswith("QWORD PTR ")
        if not (number or memory or REGISTER.fullmatch(operand)):
            self.unclear(step.text)
        return depth + (8 if step.word == "push" else -8)

    def taken(self, step):
        """By how much the stack pointer goes down."""
        word, operand = step.word, step.operands[-1]
        if word in ("cmp", "test"):
            return 0
        if word in ("sub", "add") and NUMBER.fullmatch(operand):
            return signed(operand) * (1 if word == "sub" else -1)
        inner = STACK_MEMORY.fullmatch(operand)
        if word == "lea" and inner and "*" not in operand:
            return -self.displacement(inner)
        self.unclear(step.text)

    def displacement(self, inner):
        terms = re.findall(r"[-+][^-+]+", inner.group(1))
        return sum(signed(term) for term in terms if "0x" in term)

    def below(self, step, depth):
        """The greatest depth that an instruction uses with no move."""
        text = ",".join(step.operands)
        found = STACK_MEMORY.search(text)
        if not found:
            if re.search(r"\[[^]]*rsp", text):
                self.unclear(step.text)
            return 0
        used = -self.displacement(found)
        if used > RED_ZONE and "*" not in text and step.operands[0] != "rsp":
            self.unclear(step.text)
        # A place in an array there, by a number that need not start at 0.
        return depth + min(used, RED_ZONE)

    # Ways and calls.

    def ways(self, step, offset, depth):
        """The offsets at which it goes on."""
        word, ways = step.word, [step.next]
        if word == "ret":
            if depth:
                self.unclear("ret at a depth of %d bytes" % depth)
            return []
        if word in NO_RETURN:
            return []
        if word == "call":
            self.start(self.target(step), depth + RETURN_ADDRESS)
        elif word == "jmp":
            ways = self.jumped(step, offset, depth)
        elif word.startswith(("j", "loop")):
            ways += self.jumped(step, offset, depth)
        for way in ways:
            if way is None or self.code.function_at(
                    self.at(way)) != self.place:
                self.unclear("goes on after its end")
        return ways

    def target(self, step):
        """Where a call or jump leads: a place, or a name outside."""
        if step.relocation:
            kind, symbol, addend = step.relocation
            if kind not in ("R_X86_64_PLT32", "R_X86_64_PC32") or (
                    "[" in step.operands[0]):
                self.unclear("%s by %s" % (step.text, kind))
            start = self.code.resolved(self.place.member, symbol)
            if start:
                return start._replace(offset=start.offset + addend + 4)
            if symbol not in OUTSIDE:
                self.unclear("calls %s, not in the archive" % symbol)
            return symbol
        named = re.fullmatch(r"([0-9a-f]+) <.+>", step.operands[0])
        if not named:
            self.unclear("%s: by address" % step.text)
        return self.at(int(named.group(1), 16))

    def start(self, target, depth):
        """Another function starts, or this one again."""
        self.deepest = max(self.deepest, depth)
        if isinstance(target, str):
            self.outside.add(target)
            return
        if target not in self.code.starts:
            self.unclear("goes into the middle of %s" % self.code.starts[
                self.code.function_at(target)])
        self.calls[target] = max(self.calls.get(target, 0), depth)

    def jumped(self, step, offset, depth):
        """Where a jump leads inside the function; another one starts in its
        place."""
        if REGISTER.fullmatch(step.operands[0]):
            return self.switched(step, offset)
        target = self.target(step)
        if isinstance(target, Place) and (
                self.code.function_at(target) == self.place):
            return [target.offset]
        self.start(target, depth)
        return []

    def switched(self, step, offset):
        """The ways of a switch: a number from a table is added to where the
        table stands, and all entries lead into this function."""
        back = sorted(each for each in self.depths if each < offset)[-2:]
        lines = [self.code.instructions[self.at(each)] for each in back]
        register = step.operands[0]
        entry = len(lines) == 2 and lines[0].word == "movsxd" and (
            TABLE_ENTRY.fullmatch(lines[0].operands[-1]))
        if not entry or lines[1].word != "add" or (
                lines[1].operands != [register, entry.group(1)]
                or lines[0].operands[0] != register
                or not self.has_table(entry.group(1), back[0])):
            self.unclear("%s: by address" % step.text)
        self.switches |= {back[1], offset}
        return self.table_ways(step)

    def table(self):
        """The section of the function's own tables."""
        return ".rodata" + self.place.section.removeprefix(".text")

    def has_table(self, register, offset):
        """Was a register, before an offset, last given where a table of this
        function stands."""
        written = [
            each for each in range(offset - 1, self.place.offset - 1, -1)
            if self.writes(self.code.instructions.get(self.at(each)),
                           register)]
        last = written and self.code.instructions[self.at(written[0])]
        return bool(last and last.word == "lea" and last.relocation
                    and last.relocation.symbol == self.table())

    @staticmethod
    def writes(step, register):
        return bool(step and step.word not in READ_ONLY
                    and step.operands[:1]
                    and step.operands[0] in parts(register))

    def table_ways(self, step):
        member, section, start = self.place
        table = self.table()
        heads = sorted(each.relocation.addend + 4
                       for place, each in self.code.instructions.items()
                       if place[:2] == (member, section) and each.relocation
                       and each.relocation.symbol == table)
        rows = self.code.tables.get((member, table), {})
        ways = []
        for offset, (kind, symbol, addend) in rows.items():
            head = max((each for each in heads if each <= offset), default=0)
            if kind != "R_X86_64_PC32" or symbol != section:
                self.unclear("%s: a table that leads out of it" % step.text)
            ways.append(addend - (offset - head))
        if start or not ways:
            self.unclear("%s: by address" % step.text)
        return ways


class Calls:
    """The functions that are reached from an entry."""

    def __init__(self, code, entry):
        if entry not in code.globals:
            raise Unclear("%s: not in the archive" % entry)
        self.entry = code.globals[entry]
        self.functions, todo = {}, [self.entry]
        while todo:
            place = todo.pop(0)
            if place not in self.functions:
                self.functions[place] = Function(code, place)
                todo += self.functions[place].calls

    def name(self, place):
        return self.functions[place].name

    def outside(self):
        return sorted(set().union(*(
            each.outside for each in self.functions.values())))

    def way_back(self, start, without=None):
        """The shortest chain of calls from a function to itself, or None;
        without another one in it."""
        todo, seen = [[start]], set()
        while todo:
            chain = todo.pop(0)
            for place in self.functions[chain[-1]].calls:
                if place == start:
                    return chain + [start]
                if place not in seen and place != without:
                    seen.add(place)
                    todo.append(chain + [place])
        return None

    def cycles(self):
        """For each function that calls itself its shortest chain."""
        chains = {place: self.way_back(place) for place in self.functions}
        return {place: chain for place, chain in chains.items() if chain}

    def head(self):
        """The function that each turn of every cycle enters."""
        cycles = self.cycles()
        for head in cycles:
            if not any(self.way_back(place, head)
                       for place in cycles if place != head):
                return head
        raise Unclear("no function that each turn of the cycle enters: "
                      + "; ".join(map(self.chain_text, cycles.values())))

    def chain_text(self, chain):
        return " -> ".join(map(self.name, chain))

    def deepest(self, turns=0):
        """The frames of the deepest chain of calls, as function and bytes.
        The head of the cycles is entered so often, if there are any."""
        cycles = self.cycles()
        head = self.head() if cycles else None

        @cache
        def chain(place, left):
            function = self.functions[place]
            chains = [((place, function.deepest + RETURN_ADDRESS),)]
            for callee, depth in function.calls.items():
                inner = place in cycles and callee in cycles
                if not (inner and left == 0):
                    chains.append(((place, depth), *chain(
                        callee, left - (callee == head))))
            return max(chains, key=bytes_of)
        return chain(self.entry, turns)


def bytes_of(chain):
    return sum(size for _, size in chain)


def print_chain(calls, title, chain):
    print("%s: %d bytes of stack" % (title, bytes_of(chain)))
    counts = {}
    for frame in chain:
        counts[frame] = counts.get(frame, 0) + 1
    for (place, size), count in counts.items():
        print("  %3d x %5d  %s" % (count, size, calls.name(place)))
    for name in calls.outside():
        print("  not counted: what %s uses" % name)


def report(code, entry):
    name, _, times = entry.partition("=")
    calls = Calls(code, name)
    cycles = calls.cycles()
    if times and not cycles:
        raise Unclear("%s: no function in it calls itself" % name)
    if cycles and not times:
        raise Unclear("%s: a function calls itself: %s" % (
            name, calls.chain_text(next(iter(cycles.values())))))
    if times:
        head = calls.head()
        print("%s: %s entered %s times, in these cycles: %s" % (
            name, calls.name(head), times, "; ".join(
                map(calls.chain_text, cycles.values()))))
    else:
        print("%s: %d functions, none calls itself, even through others: %s" %
              (name, len(calls.functions),
               ", ".join(each.name for each in calls.functions.values())))
    print_chain(calls, name, calls.deepest(int(times or 0)))


def main(arguments):
    if any(not re.fullmatch(r"[^-=]+(?:=[1-9][0-9]*)?", each)
           for each in arguments[1:]) or arguments[:1] == ["--help"]:
        print("usage: tools/stack.py [ARCHIVE [ENTRY..]]", file=sys.stderr)
        return 2
    archive, *entries = arguments or DEFAULTS
    try:
        code = Code(archive)
        for entry in entries or DEFAULTS[1:]:
            report(code, entry)
    except Unclear as fault:
        print(fault)
        return 1
    return 0


if __name__ == "__main__":
    sys.exit(main(sys.argv[1:]))
