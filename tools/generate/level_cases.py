"""Payloads for a walker with a row of levels: part of payload_cases.

While an inner level is open, such a walker keeps of each outer one whether it
is a list or a dictionary, and its keys so far. level_payloads() yields
payloads that show a wrong row: levels mixed, left and entered again at every
depth, with keys before and after them.
"""

import itertools

from generate.chance import Chance
from generate.encoded import (
    REPLACEMENTS, dictionary, integer, listing, mutated, nested, string)

LEVELS = 16
MIXES = ("l", "d", "ld", "dl", "lld", "ddl")


def mixed(mix, depth):
    return (mix * depth)[:depth]


def chosen(chance, depth):
    return "".join(chance.pick("ld") for _ in range(depth))


def kinds_of(chance, depth):
    for mix in MIXES:
        yield mixed(mix, depth)
    for _ in range(2):
        yield chosen(chance, depth)


# Kinds of levels.

def all_mixes(chance):
    """Lists and dictionaries mixed, at every depth up to 18. The last core
    is one close too many in a list, and no value in a dictionary."""
    for depth in range(1, 6):
        for kinds in itertools.product("ld", repeat=depth):
            yield nested(kinds, b"0:")
    for depth in range(1, 19):
        for kinds in kinds_of(chance, depth):
            for core in (b"0:", b"le", b"de", b"e"):
                yield nested(kinds, core)


def closes(chance):
    """A level too few and too many closed, and a value after the last."""
    for depth in range(1, LEVELS + 1):
        for kinds in kinds_of(chance, depth):
            whole = nested(kinds, b"0:")
            yield whole[:-1]
            yield whole + b"e"
            yield whole + chance.pick((b"0:", b"le", b"1:a0:", b"d", b"x"))


AFTER = [b"i2e", b"1:z", b"1:z0:", b"1:k0:", b"0:0:", b"1:ze", b"le", b"de",
         b"i2e1:z", b"x", b"e", b"", b"l", b"d", b"1:\xff0:"]


def after_deep_close():
    """What may follow a value of many levels, in a list and a dictionary."""
    for depth in (1, 2, 7, 14, 15):
        for mix in ("l", "d", "ld"):
            deep = nested(mixed(mix, depth), b"0:")
            for after in AFTER:
                yield b"l" + deep + after + b"e"
                yield b"d1:k" + deep + after + b"e"


def no_value():
    """A close where a value has to stand, at each depth: alone, after an
    entry and after an inner value."""
    for depth in range(LEVELS):
        for mix in MIXES[:4]:
            for entries in (b"1:a", b"1:a0:1:b", b"1:ale1:b", b"1:ade1:b",
                            b"1:ad1:bd1:c0:ee1:b"):
                yield nested(mixed(mix, depth), b"d" + entries + b"e")


# Keys about inner levels.

INNER = [
    b"le", b"de", b"d1:a0:e", b"d1:m0:e", b"d1:z0:e", b"d1:b0:1:y0:e",
    b"d1:y0:1:b0:e", b"ld1:a0:1:z0:ee", b"d1:zd1:a0:ee", b"d1:ad1:z0:ee",
    b"lld1:z0:eee", b"d1:mld1:m0:eee", b"d1:a0:1:ade1:z0:e", b"d1:z0:1:a0:e",
]
BEFORE = [b"", b"1:a0:", b"1:p0:", b"1:a0:1:p0:", b"1:ad1:p0:e"]
LATER = [b"a", b"b", b"m", b"n", b"p", b"y", b"z"]


def keys_after_close():
    """After an inner value a key of the outer dictionary: repeated, below or
    above its greatest, or one that only the inner one has."""
    for inner, before in itertools.product(INNER, BEFORE):
        for key in LATER:
            yield b"d%s1:m%s%se" % (before, inner, string(key) + b"0:")
    for inner, key in itertools.product(INNER, LATER):
        entries = (b"c", b"0:"), (b"m", inner), (key, b"0:")
        for kinds in ("l", "d", "l" * 11 + "d"):
            yield nested(kinds, dictionary(*entries))
        yield dictionary(*entries, (b"n", inner), (b"m", b"0:"))
        yield dictionary(*entries, (b"n", inner), (b"o", b"0:"))


def siblings():
    """Dictionaries one after the other, whose keys have nothing to do with
    each other."""
    rows = [(b"a",), (b"a", b"b"), (b"b", b"a"), (b"z",), (b"a", b"a"), ()]
    made = [dictionary(*((key, b"0:") for key in row)) for row in rows]
    for one, two in itertools.product(made, repeat=2):
        for depth in (0, 1, 2, 13, 14):
            yield nested(mixed("ld", depth), listing(one, two))
        yield listing(one, b"le", two)
        yield listing(one, two, one)
        yield listing(listing(one), listing(two))
        yield dictionary((b"a", one), (b"b", two))
        yield dictionary((b"b", one), (b"a", two))
        yield dictionary((b"a", one), (b"a", two))
        yield dictionary((b"a", listing(one, two)), (b"b", listing(one)))


# Towers: levels that each have other values before and after the inner one.

def around(kind, row, at, inner):
    """One level: a value for each key of a row, the inner one at a place. A
    list has the values alone."""
    values = [inner if place == at else (b"0:", b"i1e")[place % 2]
              for place in range(len(row))]
    return listing(*values) if kind == "l" else dictionary(*zip(row, values))


def tower(kinds, rows, at, core=b"0:"):
    """core in levels of these kinds, each with its row of keys."""
    for kind, row in zip(reversed(kinds), reversed(rows)):
        core = around(kind, row, at, core)
    return core


RISING = (b"a", b"k", b"z")
FALLING = RISING[::-1]
TOWERS = [
    ("d" * LEVELS, [RISING] * LEVELS),
    ("d" * LEVELS, [FALLING] * LEVELS),
    (mixed("ld", LEVELS), [RISING] * LEVELS),
    (mixed("dl", LEVELS), [RISING, FALLING, FALLING, RISING] * 4),
]


def tower_orders(chance):
    """All orders of three keys, and of four; other orders at each level."""
    for order in itertools.permutations(RISING):
        for mix, at in itertools.product(("d", "ld"), range(3)):
            yield tower(mixed(mix, LEVELS), [order] * LEVELS, at)
    for order in itertools.permutations((b"a", b"k", b"kk", b"z")):
        yield tower("d" * LEVELS, [order] * LEVELS, 2)
    orders = list(itertools.permutations(RISING))
    for _ in range(30):
        rows = [chance.pick(orders) for _ in range(LEVELS)]
        yield tower(chosen(chance, LEVELS), rows, chance.below(3))


def with_row(rows, level, row):
    return rows[:level] + [row] + rows[level + 1:]


def tower_repeats():
    """At each level a key again, before, at and after the inner value, and
    two keys exchanged."""
    again = [(b"a", b"a", b"z"), (b"a", b"k", b"a"), (b"a", b"k", b"k")]
    exchanged = [(b"k", b"a", b"z"), (b"a", b"z", b"k"), (b"z", b"k", b"a")]
    for level, row in itertools.product(range(LEVELS), again + exchanged):
        yield tower("d" * LEVELS, with_row([RISING] * LEVELS, level, row), 1)
    for level, row in itertools.product(range(LEVELS), again):
        rows = with_row([FALLING] * LEVELS, level, row)
        yield tower(mixed("ld" if level % 2 else "dl", LEVELS), rows, 1)


def tower_depths():
    """Towers of every depth, the inner value first, between and last; and
    levels in the sixteenth."""
    for depth, mix in itertools.product(range(1, LEVELS + 2), MIXES):
        yield tower(mixed(mix, depth), [RISING] * depth, depth % 3)
    for kinds, rows in TOWERS:
        for deep in (b"le", b"de", b"l", b"d1:a0:1:a0:e"):
            yield tower(kinds, rows, 1, deep)


def tower_closes():
    """Each e after a tower's core lost and doubled, so that what follows
    stands in another level."""
    for kinds, rows in TOWERS:
        whole = tower(kinds, rows, 1, b"4:core")
        for at in range(whole.index(b"core") + 4, len(whole)):
            if whole[at:at + 1] == b"e":
                yield whole[:at] + whole[at + 1:]
                yield whole[:at] + b"e" + whole[at:]


def tower_cuts():
    for kinds, rows in (TOWERS[0], TOWERS[3]):
        whole = tower(kinds, rows, 1)
        for size in range(len(whole) + 1):
            yield whole[:size]


def tower_damage(chance):
    """Towers of five levels with one byte changed, and damaged ones of any
    depth."""
    for mix in ("d", "ld"):
        whole = tower(mixed(mix, 5), [RISING] * 5, 1)
        for at in range(len(whole)):
            for byte in (b"e", chance.pick(REPLACEMENTS)):
                yield whole[:at] + byte + whole[at + 1:]
    for _ in range(80):
        depth = 2 + chance.below(LEVELS)
        rows = [chance.shuffled(RISING) for _ in range(depth)]
        whole = tower(chosen(chance, depth), rows, chance.below(3),
                      integer(chance.below(100)))
        yield whole
        yield mutated(chance, whole)


def level_payloads():
    chance = Chance(0xD1B54A32D192ED03)
    return itertools.chain(
        all_mixes(chance), closes(chance), after_deep_close(), no_value(),
        keys_after_close(), siblings(), tower_orders(chance), tower_repeats(),
        tower_depths(), tower_closes(), tower_cuts(), tower_damage(chance))
