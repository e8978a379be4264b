#!/usr/bin/env python3
"""Sets what changed between two checkouts side by side, as docs/DESIGN-PASS.md ends with it.

usage: python3 tools/design/changes.py OLD NEW       OLD and NEW are folders with crates/ and docs/

Public items of src/ (types, constants, functions with their clauses), definitions and statements of specs/, and of proofs/ what
README or docs/ of OLD name.
"""

import os
import re
import sys

OLD, NEW = sys.argv[1:3]


def files(root, part, ending):
    crates = os.path.join(root, "crates")
    for crate in sorted(os.listdir(crates)):
        for folder, _, names in sorted(os.walk(os.path.join(crates, crate, part))):
            for n in sorted(names):
                if n.endswith(ending):
                    path = os.path.join(folder, n)
                    with open(path, encoding="utf-8") as f:
                        yield crate, os.path.relpath(path, os.path.join(crates, crate)), f.read().split("\n")


def definitions(root):
    """Each definition of specs/: its signature and clauses, with no comment."""
    found = {}
    for crate, path, lines in files(root, "specs", ".antt"):
        if path.endswith("Lib.antt"):
            continue
        name, where = None, None
        for line in lines:
            m = re.match(r"\s*(?:abbrev |unfoldable )?(?:pub )?(?:abbrev |unfoldable )?(?:record |data )?([\w'-]+)\b.*(?: : |where$)", line)
            if line.startswith(("use ", "--", "pub use")) or not line.strip():
                name = name if line.strip() and not line.startswith("use") else None
                continue
            if m and (name is None or m.group(1) != name) and re.match(r"\s*(abbrev|unfoldable|pub|record|data|[\w'-]+ :)", line) and not re.match(r"\s+pub ", line):
                name = m.group(1)
                found[crate, name] = (path, [line.rstrip()])
            elif name:
                found[crate, name][1].append(line.rstrip())
    return found


def items(root):
    """Each public item of src/: types with fields, constants, functions with their clauses."""
    found = {}
    for crate, path, lines in files(root, "src", ".rt"):
        owner, i = "", 0
        while i < len(lines):
            line = lines[i]
            m = re.match(r"impl(?:<[^>]*>)? (?:(\w+)(?:<.*?>)? for )?(\w+)", line)
            if m:
                owner = (m.group(2) if not m.group(1) else m.group(1) + " for " + m.group(2)) + "::"
            if line == "}":
                owner = ""
            m = re.match(r"(\s*)pub (?:const )?(fn|struct|enum|const|extern \"C\" fn) (\w+)", line)
            if not m:
                i += 1
                continue
            kind, name = m.group(2), owner + m.group(3)
            text = [line.rstrip()]
            if kind.endswith("fn"):
                while not re.search(r"\{$", text[-1]) and i + 1 < len(lines):
                    i += 1
                    text.append(lines[i].rstrip())
                text[-1] = re.sub(r"\s*\{$", "", text[-1])
            elif kind in ("struct", "enum") and line.endswith("{"):
                while lines[i] != m.group(1) + "}":
                    i += 1
                    if not lines[i].strip().startswith("//"):
                        text.append(lines[i].rstrip())
            found[crate, name] = (path, [t for t in text if t.strip()])
            i += 1
    return found


def theorems(root, named):
    found = {}
    for crate, path, lines in files(root, "proofs", ".antt"):
        for line in lines:
            m = re.match(r"\s*pub ([\w'-]+) : (.*)$", line)
            if m and m.group(1) in named and not re.search(r"/(Answers|Invariants)\.antt$", path):
                found[crate, m.group(1)] = (path, [line.strip()])
    return found


def named(root):
    words = set()
    docs = [os.path.join(root, "README.md")] + [os.path.join(root, "docs", f) for f in os.listdir(os.path.join(root, "docs")) if f.endswith(".md")]
    for d in docs:
        if not d.endswith(("PORT.md", "DESIGN-PASS.md")):
            with open(d, encoding="utf-8") as f:
                words |= set(re.findall(r"`([\w'-]+)`", f.read()))
    return words


def show(title, old, new):
    print(f"\n### {title}\n")
    for key in sorted(set(old) | set(new)):
        a, b = old.get(key), new.get(key)
        if a and b and a[1] == b[1]:
            continue
        where = f"{key[0]} {(b or a)[0]}, `{key[1]}`"
        if not b:
            print(f"{where}: gone\n")
        elif not a:
            print(f"{where}: new\n")
        else:
            print(f"{where}\n")
        for mark, side in (("-", a), ("+", b)):
            for line in side[1] if side else ():
                print(f"    {mark} {line}")
        print()


def main():
    show("Public items of src/", items(OLD), items(NEW))
    show("Definitions and statements of specs/", definitions(OLD), definitions(NEW))
    words = named(OLD)
    show("Theorems of proofs/ that README or docs/ named", theorems(OLD, words), theorems(NEW, words))


main()
