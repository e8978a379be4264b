"""The machine code of an x86-64 archive or object, as objdump shows it."""

import os
import re
import subprocess
from typing import NamedTuple

MEMBER = re.compile(r"(\S.*):\s+file format (\S+)")
SYMBOL = re.compile(r"([0-9a-f]{16}) (.{7}) (\S+)\t[0-9a-f]{16} "
                    r"(?:\.(?:hidden|internal|protected) )?(.+)")
SECTION = re.compile(r"Disassembly of section (.+):")
INSTRUCTION = re.compile(r" *([0-9a-f]+):\t(.+)")
INNER_RELOCATION = re.compile(r"\t+([0-9a-f]+): (R_X86_64_\w+)\t(.+)")
RECORDS = re.compile(r"RELOCATION RECORDS FOR \[(.+)\]:")
RECORD = re.compile(r"([0-9a-f]{16}) (R_X86_64_\w+) +(.+)")
ADDEND = re.compile(r"(.+?)([-+]0x[0-9a-f]+)?")
PREFIXES = frozenset((
    "bnd", "cs", "data16", "ds", "es", "fs", "gs", "lock", "notrack", "rep",
    "repnz", "repz", "ss"))


class Unclear(Exception):
    """Something of which nothing can be said; its text says what."""


class Place(NamedTuple):
    member: str
    section: str
    offset: int


class Relocation(NamedTuple):
    kind: str
    symbol: str
    addend: int


class Instruction(NamedTuple):
    text: str
    word: str  # the mnemonic, with no prefix
    operands: list
    relocation: Relocation
    next: int  # the offset after it, or None at its section's end


def shown(option, file):
    """What objdump prints of a file, line by line with the member's name."""
    made = subprocess.run(
        ["objdump", option, "-M", "intel", "--no-show-raw-insn", file],
        capture_output=True, text=True, env={**os.environ, "LC_ALL": "C"})
    if made.returncode or made.stderr:
        raise Unclear("%s: not disassembled: %s" % (file, made.stderr.strip()))
    member = ""
    for line in made.stdout.splitlines():
        if found := MEMBER.fullmatch(line):
            member, form = found.groups()
            if form != "elf64-x86-64":
                raise Unclear("%s: %s is %s" % (file, member, form))
        yield member, line


def relocation(kind, text):
    symbol, addend = ADDEND.fullmatch(text).groups()
    return Relocation(kind, symbol, int(addend or "0", 16))


def taken_apart(text, inner, after):
    words = text.split("#")[0].split(None, 1)
    while words and words[0] in PREFIXES and len(words) > 1:
        words = words[1].split(None, 1)
    operands = words[1].strip().split(",") if len(words) > 1 else []
    return Instruction(" ".join(text.split()), words[0], operands, inner,
                       after)


class Code:
    """Instructions, symbols and tables of a file."""

    def __init__(self, file):
        self.symbols, self.globals, self.starts = {}, {}, {}
        self.instructions, self.tables = {}, {}
        self.read_symbols(file)
        self.read_instructions(file)
        self.read_tables(file)
        if not self.instructions:
            raise Unclear("%s: no machine code" % file)

    def read_symbols(self, file):
        for member, line in shown("-t", file):
            found = SYMBOL.fullmatch(line)
            if not found or found.group(3) == "*UND*":
                continue
            offset, flags, section, name = found.groups()
            place = Place(member, section, int(offset, 16))
            self.symbols[member, name] = place
            if flags[0] in "gu!" or flags[1] == "w":
                if name in self.globals:
                    raise Unclear("%s stands twice in %s" % (name, file))
                self.globals[name] = place
            if flags[6] == "F":
                self.starts.setdefault(place, name)

    def read_instructions(self, file):
        rows, section = {}, ""
        for member, line in shown("-dr", file):
            if found := SECTION.fullmatch(line):
                section = found.group(1)
            elif found := INSTRUCTION.fullmatch(line):
                row = rows.setdefault((member, section), [])
                row.append([int(found.group(1), 16), found.group(2), None])
            elif found := INNER_RELOCATION.fullmatch(line):
                row[-1][2] = relocation(*found.groups()[1:])
        for (member, section), row in rows.items():
            offsets = [offset for offset, _, _ in row[1:]] + [None]
            for (offset, text, inner), after in zip(row, offsets):
                self.instructions[Place(member, section, offset)] = (
                    taken_apart(text, inner, after))

    def read_tables(self, file):
        """The relocations of each section that is no code, by offset."""
        section = ""
        for member, line in shown("-r", file):
            if found := RECORDS.fullmatch(line):
                section = found.group(1)
            elif found := RECORD.fullmatch(line):
                rows = self.tables.setdefault((member, section), {})
                offset, kind, text = found.groups()
                rows[int(offset, 16)] = relocation(kind, text)

    def resolved(self, member, symbol):
        """Where a symbol stands, or None if that is not in the file."""
        return self.symbols.get((member, symbol), self.globals.get(symbol))

    def function_at(self, place):
        """The start of the function that a place is in."""
        starts = [start for start in self.starts
                  if start[:2] == place[:2] and start.offset <= place.offset]
        if not starts:
            raise Unclear("no function at %s+%#x" % place[1:])
        return max(starts)
