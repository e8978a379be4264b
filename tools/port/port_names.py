#!/usr/bin/env python3
"""Spells this repository's own names in specs/ and proofs/ as today's Rattle does: words in snake case, types and modules
in camel case. port.py respells only the names that it knows, so this runs once after it.

usage: tools/port/port_names.py [--dry]     at the top of the repository

A name is one that an .antt file of a crate defines. It is respelled in the specs, proofs, sources (clauses and imports),
edits and documents. A file that imports a name of the same spelling from a library keeps it. Names that would fall together
get another ending, from ENDINGS below, or stop the run.
"""
import collections
import glob
import os
import re
import sys

TOKEN = re.compile(r"[^\s(){}\[\].,;:⌜⌝`\"|\\]+")
DEFINED = re.compile(r"^\s*(?:(?:pub|abbrev|unfoldable)\s+)*([^\s(){}\[\].,;:]+(?:\s+[^\s(){}\[\].,;:]+)*)\s+:\s")
KEYWORDS = {"record", "data", "let", "in", "use", "module", "where", "elim", "as", "pub", "abbrev", "unfoldable", "unfolding", "mod"}
GOAL = re.compile(r":\s.*\b(?:tie|[\w-]*lts)\.(?:Need-|invariant|decreases|Measure)")
LIBRARY = re.compile(r"^(?:mathlib|lib|native|borrow|Prim|Rattle\.(?:std|core|io|libc|os)|cubical)\b")

# names that would fall together with another in scope
ENDINGS = {"least_step": "least_step_lem", "skip_step": "skip_step_lem", "no_raise": "no_raise_lem"}


def snake(part):
    if part[:1].isupper():
        return part
    return re.sub(r"(?<=[a-z0-9])([A-Z])", lambda m: "_" + m.group(1).lower(), part)


def respelled(name):
    name = name.replace("′", "'")
    if not re.match(r"^[A-Za-z][\w'-]*$", name):
        return name
    parts = [snake(p) for p in name.split("-")]
    out = parts[0]
    for before, after in zip(parts, parts[1:]):
        plain = before[:1].islower() and (after[:1].islower() or after[:1].isdigit())
        out += ("_" if plain else "-") + after
    return out


def antt_files():
    for kind in ("specs", "proofs"):
        yield from sorted(glob.glob(f"crates/*/{kind}/**/*.antt", recursive=True))


def defined_in(text, walked):
    names = set()
    for line in text.splitlines():
        line = line.split("--")[0] if line.lstrip().startswith("--") else line
        m = DEFINED.match(line)
        if not m or (walked and GOAL.search(line)):
            continue
        words = m.group(1).split()
        if any(w in KEYWORDS for w in words):
            continue
        names.update(words)
    return names


def imported(text):
    """The names that a file imports from a library."""
    names = set()
    for m in re.finditer(r"\buse\s+([\w.]+?)\.\{([^}]*)\}", text):
        if LIBRARY.match(m.group(1)):
            for item in m.group(2).split(","):
                names.update(w for w in item.split() if w != "as")
    return names


def main():
    dry = "--dry" in sys.argv
    table = {}
    texts = {}
    for p in antt_files():
        texts[p] = open(p, encoding="utf-8").read()
        for n in defined_in(texts[p], p.endswith("/Proof.antt")):
            if n in KEYWORDS:
                continue
            new = ENDINGS.get(n, respelled(n))
            if new != n:
                table[n] = new
    # a lemma that would have its function's name, or that of another, ends in _lem
    taken = collections.Counter(table.values())
    kept = set()
    for p, text in texts.items():
        kept.update(TOKEN.findall(text))
    for n, new in sorted(table.items()):
        if taken[new] > 1 or new in kept:
            if "-" in n:
                table[n] = new + "_lem"
            else:
                print(f"{n}: {new} is there already: {[o for o in table if table[o] == new or o == new][:3]}")
    for p in sorted(glob.glob("crates/*/src/**/*.rt", recursive=True) + glob.glob("crates/*/must-fail/*.edit") + glob.glob("docs/**/*.md", recursive=True) + ["README.md"]):
        texts[p] = open(p, encoding="utf-8").read()
    clashes = 0
    for p, text in texts.items():
        keep = imported(text)
        seen = collections.defaultdict(set)

        def turned(m):
            t = m.group(0)
            known = t in table and t not in keep
            if p.endswith((".rt", ".edit")) and t in ENDINGS:
                known = False
            if p.endswith(".md") and "-" in t and text[m.start() - 1:m.start()] != "`":
                known = False
            new = table[t] if known else t
            seen[new].add(t)
            return new

        out = TOKEN.sub(turned, text)
        for new, olds in seen.items():
            if len(olds) > 1 and p.endswith(".antt") and not p.endswith("/Proof.antt"):
                clashes += 1
                print(f"{p}: fall together: {new}: {sorted(olds)}")
        if p.endswith(".rt"):
            for new, olds in seen.items():
                if any(o in table for o in olds) and re.search(r"[(,]\s*(?:mut )?" + re.escape(new) + r": ", out):
                    clashes += 1
                    print(f"{p}: a parameter hides {new}")
        if not dry and out != text:
            with open(p, "w", encoding="utf-8") as f:
                f.write(out)
    print(f"{len(table)} names, {clashes} clashes")
    if "--table" in sys.argv:
        for k in sorted(table):
            print(k, table[k])


if __name__ == "__main__":
    main()
