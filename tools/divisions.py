#!/usr/bin/env python3
"""Lists each division and remainder whose divisor is not seen to be a power of two.

Usage: tools/divisions.py source FOLDER..    in Rattle source: `FILE:LINE: the line` for each such line
       tools/divisions.py plain NAME         in what objdump -dr shows, handed in, of a library or program that Rattle's own
                                             compiler built at level 0: `NAME: FUNCTION: the instruction` for each

Prints how many were seen if none is listed; else ends with status 1. At that level each division is an instruction, one by a
constant too, whose divisor is put into a register right before; names are resolved, and the functions of the toolchain's
libraries that are called stand there. What the compiler itself computes, as a constant's value, stands in source only.

In source a divisor is seen to be a power of two if it is such a literal, or the name of a constant that is such a literal
and stands in the same file, which has no module in it, outside every block. Anything else is listed. Comments, byte and text
literals, contracts and `ghost use` are no code; what cannot be told from code is listed too, and may hide a division after it.
"""
import glob
import re
import sys

# Contracts are antt, in which `--` and `{-` start comments. A bracket may stand in a comment, a string or a quoted name, so a
# contract that holds one of these is left, and is listed by its first word.
NO_CODE = re.compile(r"""
    //[^\n]* | /\*
    | \bb?r(\#*)".*?"\1 | \bb"(?:\\.|[^"\\])*" | \bb'(?:\\x\w\w|\\.|[^'\\\n])'
    | \bextern\s+"C" | (?<![\w'])'(?:\\x\w\w|\\u\{\w+\}|\\.|[^'\\\n])' | "(?:\\.|[^"\\\n])*"
    | \b(?:requires|ensures|ghost)(?:\s+\w+)?(?:\s*[:=])?\s*\{(?:(?!--)[^{}"«»]|\{(?!-)(?:(?!--)[^{}"«»])*\})*\}
    | \bghost\s+use\s(?:(?!--|\{-)[^;"«»])*;
    """, re.S | re.X)
COMMENT_BORDER = re.compile(r"/\*|\*/")
INNER_MODULE = re.compile(r"\bmod\b[^;{]*\{")
CONSTANT = re.compile(r"\bconst\s+(\w+)\s*:[^=;{}()<>]+=([^;]*);")
OPERATOR = re.compile(r"[/%](=?)\s*")
# None of these is left where code was told from the rest.
UNTOLD = re.compile(r"[⌜⌝\"]|\b(?:requires|ensures|ghost)\b")
DIVISOR = re.compile(r"(\w+)(?:\s+as\s+\w+)*")
# A path, a call, an index or a field makes another number of what stands before it; `..` is a range.
CONTINUED = re.compile(r"\s*(?:::|\(|\[|\.(?!\.))")
STATEMENT_END = re.compile(r"\s*[;,)}]")
FUNCTION = re.compile(r"[0-9a-f]+ <(.*)>:")
INSTRUCTION = re.compile(r" *([0-9a-f]+):\t(.*?) *")
JUMP = re.compile(r"(?:[a-z]+ )*j[a-z]+ +([0-9a-f]+) <")
TABLE = re.compile(r"lea +0x[0-9a-f]+\(%rip\),%\w+ +# ([0-9a-f]+) <.*\+0x[0-9a-f]+>")
DIVIDES = re.compile(r"(?:[a-z0-9]+ )*[a-z]*div")
ROUTINE = re.compile(r"[<\t]__[a-z_]*(?:div|mod)")
LOADED = re.compile(r"mov(?:abs)? +\$0x([0-9a-f]+),(%\w+)")
BEFORE_DIVISION = re.compile(r"mov +[^,]+(?:\([^)]*\))?,%[er]ax|xor +%edx,%edx|cqto|cltd")
LITERAL = re.compile(r"(0x[0-9a-f_]+|0o[0-7_]+|0b[01_]+|[0-9][0-9_]*)(?:[iu](?:8|16|32|64|size))?")


def is_power(number):
    return number & (number - 1) == 0 < number


def is_power_literal(text):
    literal = LITERAL.fullmatch(text.strip().lower())
    if not literal:
        return False
    digits = literal.group(1).replace("_", "")
    base = {"0x": 16, "0o": 8, "0b": 2}.get(digits[:2], 10)
    return is_power(int(digits, base))


def comment_end(text, at):
    """Where a block comment ends whose inside starts at an offset, or None; it may hold others."""
    depth = 1
    while border := COMMENT_BORDER.search(text, at):
        depth += 1 if border.group() == "/*" else -1
        at = border.end()
        if depth == 0:
            return at
    return None


def code_of(text):
    """The text with spaces for all that is no code, each line where it was. A comment that does not end stays."""
    code, at = "", 0
    while part := NO_CODE.search(text, at):
        end = comment_end(text, part.end()) if part.group() == "/*" else part.end()
        if end is None:
            break
        code += text[at:part.start()] + re.sub(r"[^\n]", " ", text[part.start():end])
        at = end
    return code + text[at:]


def in_block(code, at):
    return code.count("{", 0, at) != code.count("}", 0, at)


def constants_of(code):
    """The names that are powers of two throughout a file: Rattle lets nothing hide a constant of the same module."""
    if INNER_MODULE.search(code):
        return set()
    constants = [found for found in CONSTANT.finditer(code) if not in_block(code, found.start())]
    return {found.group(1) for found in constants if is_power_literal(found.group(2))}


def divides_by_power(code, operator, constants):
    """Is the divisor after an operator a power of two."""
    divisor = DIVISOR.match(code, operator.end())
    if not divisor or CONTINUED.match(code, divisor.end()):
        return False
    if operator.group(1) and not STATEMENT_END.match(code, divisor.end()):
        return False
    return is_power_literal(divisor.group(1)) or divisor.group(1) in constants


def in_source(folders):
    """How many operators the folders' source has, and a line for each that is listed."""
    files = sorted(file for folder in folders for file in glob.glob(f"{folder}/**/*.rt", recursive=True))
    seen, listed = 0, [] if files else ["no source"]
    for file in files:
        with open(file, encoding="utf8") as source:
            text = source.read()
        code, lines = code_of(text), text.split("\n")
        constants = constants_of(code)
        operators = list(OPERATOR.finditer(code))
        seen += len(operators)
        faults = [operator for operator in operators if not divides_by_power(code, operator, constants)]
        faults += UNTOLD.finditer(code)
        for number in sorted({code.count("\n", 0, fault.start()) for fault in faults}):
            listed.append(f"{file}:{number + 1}: {lines[number].strip()}")
    return seen, listed


def first_table(lines):
    """Where in a function's lines its first table of a switch stands: its end, since the compiler puts tables after the code.
    None if a jump leads past that, so that it is not told."""
    inside = {address: at for at, (address, _) in enumerate(lines)}
    tables = [inside[found.group(1)] for _, text in lines if (found := TABLE.match(text)) and found.group(1) in inside]
    table = min(tables, default=len(lines))
    jumps = [inside.get(found.group(1), 0) for _, text in lines[:table] if (found := JUMP.match(text))]
    return table if all(at < table for at in jumps) else None


def whole_register(word):
    """The 64-bit register that a register's name is a part of, without its first letter where it has a name."""
    name = word.lstrip("%")
    for pattern, whole in ((r"r(\d+)[dwb]?", r"r\1"), (r"[re]?(ax|bx|cx|dx|si|di|bp|sp)", r"\1"), (r"([abcd])[lh]", r"\1x"), (r"(si|di|bp|sp)l", r"\1")):
        if found := re.fullmatch(pattern, name):
            return found.expand(whole)
    return name


def is_wide(word):
    """Is it 32 or 64 bits of a register: a load of either leaves nothing of what was there."""
    return bool(re.fullmatch(r"%(?:[re][a-z]+|r\d+d?)", word))


def known_divisor(lines, at, targets):
    """The constant by which the instruction divides, or None: it is put into the register right before, on the only way."""
    register = lines[at][1].split()[-1]
    after = lines[at][0]
    for address, text in reversed(lines[max(at - 3, 0):at]):
        loaded = LOADED.fullmatch(text)
        if after in targets:
            return None
        if loaded and is_wide(loaded.group(2)) and whole_register(loaded.group(2)) == whole_register(register):
            return int(loaded.group(1), 16)
        if not BEFORE_DIVISION.fullmatch(text):
            return None
        after = address
    return None


def in_plain_code(name, text):
    """How many divisions plain machine code has, and a line for each that is listed."""
    functions, seen, listed = {}, 0, []
    for line in text.split("\n"):
        if head := FUNCTION.fullmatch(line):
            lines = functions.setdefault(head.group(0), (head.group(1), []))[1]
        elif found := INSTRUCTION.fullmatch(line):
            lines.append(found.groups())
        elif functions and line.startswith("\t"):
            lines.append(("", line))  # a relocation
    for function, lines in functions.values():
        targets = {found.group(1) for _, text in lines if (found := JUMP.match(text))}
        table = first_table(lines)
        if table is None:
            listed.append(f"{name}: {function}: a table before its end")
        for at, (_, text) in enumerate(lines[:table]):
            if ROUTINE.search(text):
                seen += 1
                listed.append(f"{name}: {function}: {' '.join(text.split())}")
            elif DIVIDES.match(text):
                seen += 1
                divisor = known_divisor(lines, at, targets)
                if divisor is None or not is_power(divisor) or divisor >= 2**31 and "idiv" in text:
                    constant = "" if divisor is None else f" by {divisor}"
                    listed.append(f"{name}: {function}: {' '.join(text.split())}{constant}")
    if not functions:
        listed.append(f"{name}: no machine code")
    return seen, listed


def main(arguments):
    if len(arguments) > 1 and arguments[0] == "source":
        what, (seen, listed) = "source", in_source(arguments[1:])
    elif len(arguments) == 2 and arguments[0] == "plain":
        what, (seen, listed) = f"plain code: {arguments[1]}", in_plain_code(arguments[1], sys.stdin.read())
    else:
        sys.exit("usage: tools/divisions.py source FOLDER.. | tools/divisions.py plain NAME")
    print("\n".join(listed) or f"{what}: {seen} divisions and remainders, each by a power of two")
    return 1 if listed else 0


if __name__ == "__main__":
    sys.exit(main(sys.argv[1:]))
