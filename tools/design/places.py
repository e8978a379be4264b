#!/usr/bin/env python3
"""Counts the places in crates/*/src that docs/DESIGN-PASS.md speaks of, point by point.

usage: python3 tools/design/places.py [-v] [FOLDER]      -v names each place; FOLDER is another checkout
"""

import itertools
import os
import re
import sys

VERBOSE = "-v" in sys.argv[1:]
ROOT = next((a for a in sys.argv[1:] if a != "-v"), ".")

# variants that say "none", or that something was refused
EMPTY = {
    "None", "Missing", "Fault", "Off", "Refused", "TooDeep", "Unknown", "Short", "Incomplete", "Other", "End", "Over",
    "NoDigit", "OverLimit", "NoMessage",
}


class Function:
    def __init__(self, crate, path, name, comment, head, body):
        self.crate, self.path, self.name, self.comment, self.head, self.body = crate, path, name, comment, head, body

    def parameters(self):
        inside = re.search(r"\((.*?)\)\s*(->|requires|ensures|\{|$)", " ".join(self.head), re.S)
        if not inside:
            return []
        return [p.strip() for p in re.split(r",(?![^<\[]*[>\]])", inside.group(1)) if ":" in p]

    def requires(self):
        facts = []
        for line in self.head:
            m = re.match(r"\s*requires (?:\w+ )?\{ (.*) \}$", line)
            if m:
                facts += [f.strip("() ") for f in m.group(1).split(" × ")]
        return facts


def sources():
    crates = os.path.join(ROOT, "crates")
    for crate in sorted(os.listdir(crates)):
        src = os.path.join(crates, crate, "src")
        for folder, _, files in sorted(os.walk(src)):
            for f in sorted(files):
                if f.endswith(".rt"):
                    path = os.path.join(folder, f)
                    with open(path, encoding="utf-8") as text:
                        yield crate, os.path.relpath(path, ROOT), text.read().split("\n")


def functions():
    for crate, path, lines in sources():
        i = 0
        while i < len(lines):
            m = re.match(r"(\s*)(?:pub )?(?:extern \"C\" )?fn (\w+)", lines[i])
            if not m:
                i += 1
                continue
            indent = m.group(1)
            comment, j = [], i - 1
            while j >= 0 and re.match(r"\s*(//|#\[)", lines[j]):
                comment.insert(0, lines[j].strip())
                j -= 1
            head, k = [], i
            while k < len(lines) and lines[k] != indent + "{" and not lines[k].endswith(" {"):
                head.append(lines[k])
                k += 1
            if k < len(lines) and lines[k].endswith(" {"):
                head.append(lines[k][:-2])
            body, k = [], k + 1
            while k < len(lines) and lines[k] != indent + "}":
                body.append(lines[k])
                k += 1
            yield Function(crate, path, m.group(2), comment, head, body)
            i = k + 1


def structs(word):
    for crate, path, lines in sources():
        for i, line in enumerate(lines):
            m = re.match(r"(?:pub )?" + word + r" (\w+)(?:<[^>]*>)? \{$", line)
            if m:
                fields, k = [], i + 1
                while lines[k] != "}":
                    if not lines[k].strip().startswith("//"):
                        fields.append(lines[k].strip())
                    k += 1
                yield crate, path, m.group(1), fields


def say(title, places):
    places = list(places)
    print(f"{len(places):4}  {title}")
    if VERBOSE:
        for p in places:
            print(f"          {p}")


def shape(body):
    text = re.sub(r"//.*", "", "\n".join(body))
    tokens = re.findall(r"b?\"[^\"]*\"|b'..?'|\w+|[^\w\s]", text)
    words = {"if", "else", "match", "loop", "while", "for", "in", "return", "let", "mut", "as", "true", "false"}
    return tuple(t if t in words or not re.match(r"[\w'\"]", t) else "x" for t in tokens)


def point1():
    say("1  enums of which a case says none or refused", (
        f"{path} {name}" for _, path, name, fields in structs("enum")
        if any(re.match(r"(\w+)", f).group(1) in EMPTY for f in fields if re.match(r"\w", f))))
    say("1  constants that are a number for a kind or a refusal", (
        f"{path} {m.group(1)}" for _, path, lines in sources() for line in lines
        for m in [re.match(r"\s*(?:pub )?const (\w+): u8 = (?:\d+|Done::\w+);", line)]
        if m and m.group(1) not in ("LARGEST", "UPPER", "LOWER")))
    say("1  fields and parameters that are such a number", (
        f"{path} {line.strip()}" for _, path, lines in sources() for line in lines
        if re.search(r"\b(?:code|kind|class|operation|mark): u(?:8|32)\b", line)))
    say("1  functions that answer such a number, and 0 for none", (
        f"{f.path} {f.name}" for f in functions() if re.search(r"-> u8$", f.head[0].rstrip())
        and re.search(r"_fault|fault_|code", f.name)))
    say("1  functions whose comment says what 0 stands for", (
        f"{f.path} {f.name}" for f in functions() if re.search(r"\b0\b[^.]*\b(none|nothing|nowhere|no)\b|\b(and|or|, |is) 0\b|is 0,", " ".join(f.comment))))
    say("1  flags that are fields or parameters", (
        f"{path} {line.strip()}" for _, path, lines in sources() for line in lines
        if re.search(r"\b\w+: bool\b", line) and not re.match(r"\s*//", line)))


def point2():
    by = {}
    for f in functions():
        s = shape(f.body)
        if len(s) >= 12:
            by.setdefault((f.crate if not f.crate.endswith("_cases") else "*_cases", s), []).append(f)
    say("2  groups of functions of one shape", (
        " = ".join(f"{f.path}:{f.name}" for f in group) for group in by.values() if len(group) > 1))


def point3():
    say("3  loops that are no `for`", (
        f"{f.path} {f.name}" for f in functions() for line in f.body if re.search(r"^\s*(while\b|loop \{)", line)))


def point4():
    say("4  casts by `as`", (
        f"{f.path} {f.name}" for f in functions() for line in f.body
        for _ in re.findall(r"\bas (?:u8|u32|u64|usize|i32|i64)\b", re.sub(r"//.*", "", line))))
    say("4  functions that print, compare or choose by hand", (
        f"{f.path} {f.name}" for f in functions() if re.match(r"print_|same$|less$|larger$|smaller$|wide$|magnitude$|negated$|signed$|from_bits$|number_of$|complain$", f.name)))


def point5():
    facts = {}
    for f in functions():
        for fact in set(f.requires()):
            facts.setdefault((f.crate, fact), []).append(f.name)
    say("5  facts that three or more functions of a crate require", (
        f"{crate}: {fact}: {', '.join(names)}" for (crate, fact), names in facts.items() if len(names) > 2))
    takes = {}
    for i, f in enumerate(functions()):
        for p in set(f.parameters()):
            takes.setdefault((f.crate, p), {})[i] = f.name
    say("5  pairs of parameters that always go together, in three or more functions of a crate", (
        f"{crate}: {a}, {b}: {', '.join(takes[crate, a].values())}"
        for (crate, a), (other, b) in itertools.combinations(sorted(takes), 2)
        if crate == other and len(takes[crate, a]) > 2 and set(takes[crate, a]) == set(takes[crate, b])))


def point6():
    say("6  structs of an array and a length", (
        f"{path} {name}" for _, path, name, fields in structs("struct")
        if any(": [" in f for f in fields) and any(re.match(r"(?:pub )?(length|count): usize", f) for f in fields)))
    say("6  functions that take an array and a length, or a slice and two offsets into it", (
        f"{f.path} {f.name}" for f in functions()
        if re.search(r": \[\w+; \w+\]", " ".join(f.head)) and any(re.search(r"\b(n|count): usize", p) for p in f.parameters())
        or sum(bool(re.search(r"\b(start|end): usize", p)) for p in f.parameters()) == 2))
    say("6  loops over a table to find a row", (
        f"{f.path} {f.name}" for f in functions() if any(re.search(r"^\s*while\b", l) for l in f.body)
        and re.search(r"\bKEYS\b|\bkeys\[|ten_to\(k\)|TENS", "\n".join(f.body)) and "return" in "\n".join(f.body)))


def point7():
    say("7  matches on numbers", (
        f"{f.path} {f.name}" for f in functions()
        if any(re.match(r"\s*(b'.'|\d+|[A-Z]\w*::[A-Z_]+) =>", l) for l in f.body)))


for point in (point1, point2, point3, point4, point5, point6, point7):
    point()
print("\n8  lines of proofs, in files")
for crate in sorted(os.listdir(os.path.join(ROOT, "crates"))):
    files = [os.path.join(d, f) for d, _, fs in os.walk(os.path.join(ROOT, "crates", crate, "proofs")) for f in fs if f.endswith(".antt")]
    if files:
        print(f"{sum(len(open(f, encoding='utf-8').read().split(chr(10))) - 1 for f in files):6}  {crate}, {len(files)} files")
