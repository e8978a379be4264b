"""Pairs of payloads that mean the same value, or nearly the same.

value_pairs() yields the kind of pair and two payloads, different bytes. What
a pair is called is only how it was made: a change may leave the value as it
is, and whether the two mean the same is for oracle.canonical.same_value.
"""

from generate.chance import Chance
from generate.encoded import integer, listing, string
from oracle.payload import is_text, walk

PAIRS = 2000
LONGEST = 40  # bytes of a random payload, so that all fit in one program's run
KEYS = [b"", b"a", b"aa", b"ab", b"b", b"c", b"d", b"e", b"z", b"\x7f", b"k9",
        b"\xc3\xa4", b"\xef\xbf\xbf", b"\xf0\x90\x80\x80", b"i1e", b"1:a"]
LONG_KEYS = [b"nine-byte", b"ten-bytes-", b"nine-bytf"]


# Trees: int, bytes, list, and dict, which is written in its own order.

def encoded(tree):
    if isinstance(tree, int):
        return integer(tree)
    if isinstance(tree, bytes):
        return string(tree)
    if isinstance(tree, list):
        return listing(*map(encoded, tree))
    return b"d" + b"".join(
        string(key) + encoded(value) for key, value in tree.items()) + b"e"


def scalar(chance):
    return chance.pick((
        chance.below(20) - 10, b"", b"x", b"xy", b"\xff",
        bytes([97 + chance.below(4)])))


def random_tree(chance, levels, root=False):
    kind = chance.below(5) if not root else 3 + chance.below(2)
    if kind < 2 or not levels:
        return scalar(chance)
    count = chance.below(3) + (1 if root else 0)
    inner = [random_tree(chance, levels - 1) for _ in range(count + 1)]
    if kind == 2 or kind == 3 and chance.below(4) == 0:
        return inner
    pool = KEYS if chance.below(6) else LONG_KEYS
    return dict(zip(chance.shuffled(pool), inner))


def copied(tree, chance=None):
    """A copy; where chance is given, its dictionaries are in another order."""
    if isinstance(tree, list):
        return [copied(item, chance) for item in tree]
    if not isinstance(tree, dict):
        return tree
    keys = chance.shuffled(tree) if chance else list(tree)
    return {key: copied(tree[key], chance) for key in keys}


def parts(tree):
    """The tree and all values inside it."""
    yield tree
    inner = tree.values() if isinstance(tree, dict) else tree
    if isinstance(tree, (dict, list)):
        for value in inner:
            yield from parts(value)


def places(tree):
    """Each list or dictionary with each index or key."""
    for part in parts(tree):
        if isinstance(part, dict):
            yield from ((part, key) for key in part)
        elif isinstance(part, list):
            yield from ((part, at) for at in range(len(part)))


def of_kind(chance, tree, kind, least):
    found = [part for part in parts(tree)
             if isinstance(part, kind) and len(part) >= least]
    return chance.pick(found) if found else None


# Changes of a tree, in place. Where one finds nothing to change, it does not.

def other_value(chance, tree):
    """One byte of a string, or an integer by one."""
    found = [(part, at) for part, at in places(tree)
             if isinstance(part[at], (int, bytes))]
    if found:
        part, at = chance.pick(found)
        value = part[at]
        if isinstance(value, int):
            part[at] = value + chance.pick((-1, 1, 256))
        elif value:
            cut = chance.below(len(value))
            part[at] = value[:cut] + bytes([value[cut] ^ 1]) + value[cut + 1:]
        else:
            part[at] = b"x"


def other_kind(chance, tree):
    """An integer as the string of its digits, a list for a dictionary."""
    found = list(places(tree))
    if found:
        part, at = chance.pick(found)
        value = part[at]
        if isinstance(value, int):
            part[at] = b"%d" % value
        elif isinstance(value, dict):
            part[at] = [each for entry in value.items() for each in entry]
        elif isinstance(value, list):
            part[at] = {} if not value else [value]
        else:
            part[at] = [] if not value else len(value)


def other_key(chance, tree):
    part = of_kind(chance, tree, dict, 1)
    if part:
        old = chance.pick(list(part))
        new = chance.pick((old + b"\x01", old[:-1], old[:-1] + b"q",
                           b"q" + old))
        if not is_text(new):
            new = old + b"q"
        value = part.pop(old)
        part.setdefault(new, value)


def entry_missing(chance, tree):
    part = of_kind(chance, tree, dict, 1)
    if part:
        del part[chance.pick(list(part))]


def entry_moved(chance, tree):
    """An entry of a dictionary into another one."""
    one, other = (of_kind(chance, tree, dict, 0) for _ in range(2))
    if one and other is not None:
        key = chance.pick(list(one))
        if not any(part is other for part in parts(one[key])):
            other.setdefault(key, one.pop(key))


def values_exchanged(chance, tree):
    part = of_kind(chance, tree, dict, 2)
    if part:
        one, two = chance.shuffled(part)[:2]
        part[one], part[two] = part[two], part[one]


def items_exchanged(chance, tree):
    part = of_kind(chance, tree, list, 2)
    if part:
        at = chance.below(len(part) - 1)
        part[at], part[at + 1] = part[at + 1], part[at]


def item_missing(chance, tree):
    part = of_kind(chance, tree, list, 1)
    if part:
        part.pop(chance.below(len(part)))


CHANGES = [other_value, other_kind, other_key, entry_missing, entry_moved,
           values_exchanged, items_exchanged, item_missing]


def tower(kinds, core):
    """core inside lists (l) and dictionaries (d)."""
    for kind in reversed(kinds):
        core = [core] if kind == "l" else {b"k": core}
    return core


def at_each_level():
    """Another order, and changes, at each of 16 levels."""
    cores = [({b"b": 1, b"a": 2}, {b"a": 2, b"b": 1}),
             ({b"b": 1, b"a": 2}, {b"a": 1, b"b": 2}),
             ({b"b": 1, b"a": 2}, {b"a": 2, b"c": 1}),
             ({b"b": 1, b"a": 2}, {b"a": 2}),
             ([1, 2], [2, 1])]
    for depth in range(16):
        for kinds in ("d" * depth, ("ld" * 8)[:depth], "l" * depth):
            for one, other in cores:
                yield "level", tower(kinds, one), tower(kinds, other)


def random_pairs(chance):
    while True:
        one = random_tree(chance, 3, True)
        for _ in range(2):
            yield "another order", one, copied(one, chance)
        for change in chance.shuffled(CHANGES)[:2]:
            two = copied(one, chance)
            change(chance, two)
            yield change.__name__.replace("_", " "), one, two


def value_pairs():
    chance = Chance(0x8EBC6AF09C88C6E3)
    made = set()
    for source in (at_each_level(), random_pairs(chance)):
        for kind, *trees in source:
            one, two = map(encoded, trees)
            long = kind != "level" and len(one) > LONGEST
            if one == two or long or (one, two) in made:
                continue
            assert walk(one, False)[0] == walk(two, False)[0] == 0
            made.add((one, two))
            yield kind, one, two
            if len(made) == PAIRS:
                return
