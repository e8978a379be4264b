#!/usr/bin/env python3
"""Turns the proofs that walk a function's places, proofs/F/Proof.antt, into Invariants.antt and Answers.antt.

usage: tools/port/answers.py NAMES CRATE_FOLDER [FUNCTION_FOLDER ..]

NAMES is the folder that names.sh fills in the crate's folder. Answers that say no more than
`search rules`, `omega arith` or `tt` are left out, since the check finds them alone. What it cannot turn it says.
"""
import json
import os
import re
import sys

WORD = r"[^\s(){}\[\].,;:⌜⌝`\"|\\]+"
SUB = "₀₁₂₃₄₅₆₇₈₉"
# functions with two `ensures`, which have names now
CLAUSES = {
    "bencode::walk::payload",
    "bencode::flat::payload",
    "ipc::header::PayloadLength::new",
    "ipc::header::read_header",
    "ipc::reader::read",
    "ipc::reader::read_strict",
}
PLAIN = {"search rules", "omega arith", "tt", "search needs"}


def norm(name):
    """One spelling for a name of Rattle's own, old or respelled."""
    name = name.strip("«»").replace("_", "-").lower()
    if name.endswith("-lem"):
        name = name[:-4]
    return name


def without_ways_up(text):
    """let p = c.before.before in .. p.args: p is c."""
    while True:
        m = re.search(r"[ \n]*\blet (\S+) = c(?:\.before)* in(?=\s)", text)
        if not m:
            return text
        text = text[:m.start()] + re.sub(r"(?<![\w.'-])" + re.escape(m.group(1)) + r"(?![\w'-])", "c", text[m.end():])


def blocks(text):
    """The items of a file, each with the comments before it."""
    out, now = [], []
    for line in text.splitlines():
        if line.strip() == "" and (not now or not all(l.startswith("--") for l in now)):
            if now:
                out.append(now)
            now = []
        elif line.strip() != "":
            now.append(line)
    if now:
        out.append(now)
    # a blank line inside an indented module belongs to it
    joined = []
    for b in out:
        if joined and b[0].startswith(" "):
            joined[-1] += [""] + b
        else:
            joined.append(b)
    return joined


class Function:
    def __init__(self, crate, folder, names):
        self.crate, self.folder = crate, folder
        self.path = os.path.join("proofs", *folder.split("/"))
        self.names = names
        self.steps = {}
        self.arms = {}
        for old, parent, (step, new), arm, more in names["places"]:
            self.steps.setdefault(norm(step), new)
        # the parts of an arm's pattern: by step and by the way to the part
        self.parts = {}
        self.owns = {}
        self.opens = False
        self.here = None
        self.callees = {}
        for place, arm in zip(names["places"], names["arms"]):
            if arm:
                for new, step, way in arm[2]:
                    if way[:1] == ["given"]:
                        self.parts.setdefault(norm(step), (arm[0], {}))[1][".".join(way[1:])] = new
                    elif not way:
                        self.owns.setdefault(norm(step), {})[arm[0]] = new
            if place[3]:
                self.callees[place[2][1]] = place[3]
        for old, new in names["args"]:
            if old.startswith(".") and " ." not in old:
                self.steps.setdefault(norm(old[1:]), new[1:])
        self.goals = {norm(o): n for o, n in names["needs"]}
        # the arms that each goal stands in
        above = {p[0]: p for p in names["places"]}
        self.inside = {}
        for (old, new), (place, _) in zip(names["needs"], names["asked_at"]):
            arms = []
            while place in above:
                arms.append(above[place][2][1])
                place = above[place][1]
            self.inside[new] = arms
        self.said = []
        self.helpers = {}
        self.order = []

    def say(self, text):
        self.said.append(f"{self.folder}: {text}")

    def path_of(self, m):
        """c.before.before.X.. without the way up."""
        rest = m.group(1)
        parts = rest.split(".")
        while parts and parts[0] == "before":
            parts.pop(0)
        if not parts:
            return m.group(0)
        head = norm(parts[0])
        if head.startswith("isstore"):
            head = head[2:]
        if head in ("args", "ranges"):
            for old, new in self.names["args"]:
                if old.startswith(f".{head} .") and parts[1:2] == [old.split(" .")[1]]:
                    parts[1] = new.split(" .")[1]
        if head in ("args", "requires", "ranges", "type-inv", "auto", "well-formed"):
            return "c." + ".".join([parts[0].replace("-", "_")] + parts[1:])
        for key in (head, "enum-known-" + head):
            if key in self.parts and parts[1:2] == ["given"]:
                arm, names = self.parts[key]
                tail = parts[2:]
                for n in range(len(tail), 0, -1):
                    way = ".".join(tail[:n])
                    if way in names:
                        return ".".join(["c", arm, names[way]] + tail[n:])
                self.say(f"no part {'.'.join(parts)}")
        if head in self.owns:
            arms = [a for a in self.inside.get(self.here, []) if a in self.owns[head]]
            if not arms and len(self.owns[head]) == 1:
                arms = list(self.owns[head])
            if arms:
                way = ".".join(["c", arms[0], self.owns[head][arms[0]]] + parts[1:])
                if re.match(r"keys\d*$", parts[-1]):
                    self.opens = True
                    way = f"(opened {way})"
                return way
        new = self.steps.get(head)
        if new is None and head + "s" in self.steps:
            new = self.steps[head + "s"]
        if new is None:
            for prefix in ("enum-known-", "struct-known-", "known-"):
                if prefix + head in self.steps:
                    new = self.steps[prefix + head]
        if new is None:
            self.say(f"no step {parts[0]}")
            return "c." + ".".join(parts)
        tail = parts[1:]
        if tail[:1] == ["new"] and len(tail) > 1 and tail[1].isdigit():
            names = self.names["params"].get(self.callees.get(new), [])
            n = 1
            while n < len(tail) and tail[n] == "1":
                n += 1
            if n - 1 < len(names) and tail[n:n + 1] == ["0"]:
                tail[1:n + 1] = [names[n - 1]]
            else:
                self.say(f"new of {new}")
        if tail[:1] == ["ensures"] and self.callees.get(new) in CLAUSES and len(tail) > 1 and tail[1] in "01":
            tail[1] = ["answer", "numbers"][int(tail[1])]
        return ".".join(["c", new] + tail)

    def helper(self, block):
        """A lemma over a place: kept to be written out, by let, in each answer that cites it."""
        i = next(i for i, l in enumerate(block) if not l.startswith("--"))
        unfold = [l for l in block[i:] if l.strip().startswith("unfolding ")]
        text = without_ways_up("\n".join(l for l in block[i:] if not l.strip().startswith("unfolding ")))
        m = re.match(r"^(?:abbrev )?(\S+) :\s*(?:\(c : tie\.[^)]*\)|tie\.\S+)\s*→\s*", text)
        name = m.group(1)
        rest = text[m.end():]
        k = re.search(r"^" + re.escape(name) + r" (\S+)(.*?)\s*=(?=\s)", rest, re.M)
        if not k or len(re.findall(r"^" + re.escape(name) + r" ", rest, re.M)) != 1:
            self.say(f"cannot write out {name}")
            return False
        typ = rest[:k.start()].strip()
        args = k.group(2).split()
        body = rest[k.end():].strip()
        if k.group(1) != "c":
            body = re.sub(r"(?<![\w.'-])" + re.escape(k.group(1)) + r"(?![\w'-])", "c", body)
        if body.startswith("let ") and not args:
            body = "(" + body + ")"
        if args:
            body = "λ " + " ".join(args) + ". " + body
        self.helpers[name] = (typ, body, unfold)
        self.order.append(name)
        return True

    def written_out(self, text):
        """The lets that an answer needs, and what their definitions unfold."""
        def cited(t):
            return [h for h in self.order if re.search(r"(?<![\w.'-])" + re.escape(h) + r" c(?:\.before)*(?![\w.'-])", t)]
        need, todo = set(), cited(text)
        while todo:
            h = todo.pop()
            if h in need:
                continue
            need.add(h)
            todo += cited(self.helpers[h][0] + " " + self.helpers[h][1])
        lets, unfold = "", []
        for h in self.order:
            if h in need:
                typ, body, u = self.helpers[h]
                lets += f"    let {h} : {typ} = {body} in\n"
                unfold += u
        out = lets, unfold
        return out

    def uncalled(self, text):
        for h in self.order:
            text = re.sub(r"(?<![\w.'-])" + re.escape(h) + r" c(?:\.before)*(?![\w.'-])", h, text)
            text = re.sub(r"\((" + re.escape(h) + r")\)", r"\1", text)
        return text

    def body(self, text):
        text = self.turned(text)
        # a test of `!x` says what it says of x
        text = re.sub(r"not-(true|false) (?:_|[^\s()]+|\([^()]*\)) (c\.if-not-[\w-]+\.\1)(?![\w'-])", r"\2", text)
        return text

    def turned(self, text):
        text = self.uncalled(text)
        # let k = c.STEP.given in .. k.0.0
        for m in list(re.finditer(r"\n *let (\S+) = (c\.\S+\.given) in", text)):
            name, way = m.groups()
            text = text.replace(m.group(0), "", 1)
            text = re.sub(r"(?<![\w.'-])" + re.escape(name) + r"\.(?=[01]\b)", way + ".", text)
        text = re.sub(r"(?<![\w.'-])c(?:\.before)+(?![\w.'-])", "c", text)
        text = re.sub(r"(?<![\w.'-])c\.((?:" + WORD + r")(?:\.(?:" + WORD + r"))*)", self.path_of, text)
        return text

    def loop_of(self, name):
        """The loop whose old name this is."""
        for (old, new), fields in self.names["loops"]:
            if norm(old) == norm(name):
                i = [l for l, _ in self.names["loops"]].index([old, new])
                return new, fields, self.names["changed"][i]
        return None

    def invariant(self, block, kind, loop):
        found = self.loop_of(loop)
        if not found:
            self.say(f"no loop {loop}")
            return None
        new, fields, changed = found
        text = "\n".join(block)
        sig = next(i for i, l in enumerate(block) if re.match(r"^(?:abbrev )?\S+ : ", l))
        name = re.match(r"^(?:abbrev )?(\S+) :", block[sig]).group(1)
        rest = block[sig + 1:]
        head = rest[0]
        m = re.match(re.escape(name) + r"\s+(.*?)\s*=(?:\s|$)(.*)$", head)
        if not m:
            self.say(f"cannot read {head}")
            return None
        params = m.group(1).split()
        want = [("initial." if c else "") + f for f, c in zip(fields, changed)] + [f for f, c in zip(fields, changed) if c]
        if len(params) != len(want):
            # a constant that was passed has no variable now
            params = [p for p in params if not re.match(r"t\d+$", p)]
        if len(params) != len(want):
            self.say(f"{loop}: parameters {params} for {want}")
            return None
        table = {p: "l." + w for p, w in zip(params, want)}
        lines = [m.group(2)] if m.group(2) else []
        lines += rest[1:]
        body = "\n".join(lines)
        body = re.sub(r"(?<![\w.'-])(" + WORD + r")", lambda k: table.get(k.group(1), k.group(1)), body)
        comments = [l for l in block[:sig] if l.startswith("--")]
        label = f"{kind}-{new}"
        gap = " " if m.group(2) else "\n"
        return comments + [f"abbrev pub {label} : goal.{label}", f"{label} l ={gap}{body}"]

    def turn(self):
        proof = os.path.join(self.crate, self.path, "Proof.antt")
        text = open(proof, encoding="utf-8").read()
        uses, helpers, answers, invariants = [], [], [], []
        head_comments = []
        for b in blocks(text):
            while b and b[0].startswith("--") and any(l.startswith("use ") for l in b) and not uses:
                head_comments.append(b.pop(0))
            if b[0].startswith("use "):
                uses += [l for l in b if l.startswith("use ")]
                continue
            sig = next((l for l in b if not l.startswith("--")), "")
            m = re.match(r"^(?:pub )?(?:abbrev )?(?:pub )?(\S+) :\s*(.*)$", sig)
            goal = re.search(r"\btie\.(invariant|decreases)-(\S+)$", sig) if m else None
            need = re.search(r"\btie\.Need-([\w-]+)", " ".join(b)) if m else None
            if m and "statement" in m.group(2):
                continue
            if goal:
                it = self.invariant(b, goal.group(1), goal.group(2))
                if it:
                    invariants.append(it)
                continue
            if need and re.search(r"\btie\.Need-", sig):
                old = norm(need.group(1))
                old = re.sub(r"^overflow-", "", old)
                new = self.goals.get(old) or self.goals.get(norm(need.group(1))) or self.goals.get(re.sub(r"^slice-bounds-", "part-", old))
                if new is None:
                    self.say(f"no goal {need.group(1)}")
                    continue
                name = m.group(1)
                i = b.index(sig)
                comments = b[:i]
                unfold = [l for l in b[i + 1:] if l.startswith("unfolding ")]
                rest = [l for l in b[i + 1:] if not l.startswith("unfolding ")]
                out = []
                for l in rest:
                    k = re.match(re.escape(name) + r" (.*)$", l)
                    if k:
                        r = re.sub(r"^(c|_) κs\b", r"\1", k.group(1))
                        l = new + " " + r
                    out.append(l)
                whole = without_ways_up("\n".join(out))
                lets, more = self.written_out(whole)
                if lets:
                    head, said = re.match(r"^(\S+ \S+) =\s*(.*)$", whole, re.S).groups()
                    whole = head + " =\n" + lets + "    " + said
                    opened = [n for u in unfold + more for n in u.split()[1:]]
                    unfold = ["unfolding " + " ".join(dict.fromkeys(opened))] if opened else []
                said = whole.split("=", 1)[1].strip() if "=" in whole else ""
                if said in PLAIN and not unfold:
                    continue
                self.here = new
                answers.append(comments + [f"pub {new} : goal.{new}"] + unfold + [self.body(whole)])
                continue
            if m and re.match(r"(?:\(c : )?tie\.", m.group(2)) and self.helper(b):
                continue
            whole = self.body("\n".join(b))
            helpers.append([whole])
            answers.append([whole])
        uses = [u for u in uses if not re.search(r"\.(Statement|Tie)\b", u)]
        module = ".".join(self.folder.split("/"))
        base = f"Rattle.{os.path.basename(os.path.abspath(self.crate))}.proofs.{module}"
        if invariants:
            self.write("Invariants.antt", uses + [f"use {base}.Given as goal"], [[]] + invariants)
        if self.opens:
            uses.append("use borrow.Enum.Refused.{opened}")
        if any("goal." in "\n".join(a) for a in answers):
            self.write("Answers.antt", head_comments + uses + [f"use {base}.Goals as goal"], [[]] + answers)
        os.remove(proof)
        return self.said

    def write(self, name, head, items):
        p = os.path.join(self.crate, self.path, name)
        with open(p, "w", encoding="utf-8") as f:
            f.write("\n\n".join("\n".join(i) for i in [head] + [i for i in items if i]) + "\n")


class Cycle(Function):
    """Functions that call one another have one proof: the names of each begin with its own."""

    def __init__(self, crate, folder, functions):
        self.crate, self.folder = crate, folder
        self.path = os.path.join("proofs", *folder.split("/"))
        self.functions = functions
        self.said = []
        self.helpers, self.order = {}, []

    def of(self, name):
        fits = [f for f in self.functions if norm(name).startswith(norm(f) + "-")]
        return max(fits, key=len) if fits else None

    def turn(self):
        proof = os.path.join(self.crate, self.path, "Proof.antt")
        text = open(proof, encoding="utf-8").read()
        comments, uses, answers, invariants = [], [], [], []
        for b in blocks(text):
            while b and b[0].startswith("--") and any(l.startswith("use ") for l in b) and not uses:
                comments.append(b.pop(0))
            if b[0].startswith("use "):
                uses += [l for l in b if l.startswith("use ") and not re.search(r"\.(Statement|Tie|Reads|Kinds|Lts-\w+)\b|borrow\.Fn\.|\{statement\}", l)]
                continue
            sig = next((l for l in b if not l.startswith("--")), "")
            m = re.match(r"^(?:pub )?(?:abbrev )?(?:pub )?(\S+) :\s*(.*)$", sig)
            if not m:
                answers.append(b)
                continue
            name = m.group(1)
            if "statement" in m.group(2) or re.search(r"Measures|Claims|\bIn \d", m.group(2)):
                if re.search(r"Measures", m.group(2)):
                    self.say(f"measure by hand: {b[1:]}")
                continue
            k = re.search(r"\b([\w-]+)-lts\.(invariant|decreases)-(\S+)$", sig)
            if k:
                f = next(g for g in self.functions if norm(g) == norm(k.group(1)))
                it = self.functions[f].invariant(b, k.group(2), k.group(3))
                if it:
                    label = it[-2].split()[2]
                    new = label.replace("invariant-", f"invariant-{f}-").replace("decreases-", f"decreases-{f}-")
                    invariants.append([l.replace(label, new) for l in it])
                continue
            k = re.search(r"\b([\w-]+)-lts\.Need-([\w-]+)", sig)
            if k:
                f = next(g for g in self.functions if norm(g) == norm(k.group(1)))
                fn = self.functions[f]
                old = re.sub(r"^overflow-", "", norm(k.group(2)))
                new = fn.goals.get(old) or fn.goals.get(norm(k.group(2))) or fn.goals.get(re.sub(r"^slice-bounds-", "part-", old))
                if new is None:
                    self.say(f"no goal {f} {k.group(2)}")
                    continue
                new = f"{f}-{new}"
                i = b.index(sig)
                unfold = [l for l in b[i + 1:] if l.startswith("unfolding ")]
                out = []
                for l in b[i + 1:]:
                    if l.startswith("unfolding "):
                        continue
                    h = re.match(re.escape(name) + r" (.*)$", l)
                    if h:
                        l = new + " " + re.sub(r"^(t (?:c|_)) κs\b", r"\1", h.group(1))
                    out.append(l)
                whole = without_ways_up("\n".join(out))
                said = whole.split("=", 1)[1].strip() if "=" in whole else ""
                if said in PLAIN and not unfold:
                    continue
                fn.here = new[len(f) + 1:]
                body = fn.body(whole)
                # the measure is no part of `requires` now
                body = re.sub(r"\(omega \(arith, c\.requires\.0\), c\.requires\.1\)", "(omega arith, c.requires)", body)
                body = re.sub(r"omega \(arith, c\.requires\.0\)", "omega arith", body)
                body = re.sub(r"omega \(arith, c\.requires\.0, ", "omega (arith, ", body)
                body = re.sub(r"c\.requires\.1(?![\w])", "c.requires", body)
                answers.append(b[:i] + [f"pub {new} : goal.{new}"] + unfold + [body])
                self.said += fn.said
                fn.said = []
                continue
            answers.append(b)
        base = f"Rattle.{os.path.basename(os.path.abspath(self.crate))}.proofs." + ".".join(self.folder.split("/"))
        self.write("Invariants.antt", uses + [f"use {base}.Given as goal"], [[]] + invariants)
        self.write("Answers.antt", comments + uses + [f"use {base}.Goals as goal"], [[]] + answers)
        os.remove(proof)
        return self.said


def main():
    names = json.load(open(os.path.join(sys.argv[1], "j", "names.json"), encoding="utf-8"))
    crate = sys.argv[2]
    only = sys.argv[3:]
    name = os.path.basename(os.path.abspath(crate))
    cycles = {}
    for key in names:
        m = re.match(r"^Rattle-" + re.escape(name) + r"-proofs\.(.*\+.*)\.Lts-(.*)$", key)
        if m:
            cycles.setdefault(m.group(1).replace(".", "/"), {})[m.group(2)] = Function(crate, m.group(1).replace(".", "/"), names[key])
    for folder, functions in cycles.items():
        if (not only or folder in only) and os.path.exists(os.path.join(crate, "proofs", folder, "Proof.antt")):
            for line in Cycle(crate, folder, functions).turn():
                print(line)
    for key in names:
        m = re.match(r"^Rattle-" + re.escape(name) + r"-proofs\.(.*)\.Lts$", key)
        if not m:
            continue
        folder = m.group(1).replace(".", "/")
        if only and folder not in only:
            continue
        if not os.path.exists(os.path.join(crate, "proofs", folder, "Proof.antt")):
            continue
        for line in Function(crate, folder, names[key]).turn():
            print(line)


if __name__ == "__main__":
    main()
