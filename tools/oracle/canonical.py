"""Oracle for the sorter: a payload written with its dictionaries sorted.

sort(payload, room) gives code, offset and the bytes that are written. Any
value that the loose walk accepts is sorted by the raw bytes of its keys, at
every level, into as many bytes as it has. Refusals, in this order:

  4        over 32,768 bytes
  5 to 10  a fault of the loose walk, at its offset
  44       fewer bytes lent than the payload has

same_value(one, other) says whether two sound payloads mean the same value,
dictionaries compared as maps. It parses and compares in its own way, and
nothing in it is put in order.

line(body) is the line that the conformance program prints.

In tools/, python3 -B -m oracle.canonical --self-test checks examples by hand.
"""

import sys

from oracle.payload import walk

LARGEST_PAYLOAD = 32768
TOO_LONG, NO_ROOM = 4, 44
FAULT = "case fault"


# The sorter: a tree of the payload, whose dictionaries are written sorted.

class Reader:
    """Takes a sound payload apart; every method starts at self.at.

    An integer or a string is its own encoding, a list a Python list, and a
    dictionary a tuple of pairs, key and value.
    """

    def __init__(self, payload):
        self.payload = payload
        self.at = 0

    def taken(self, end):
        part = self.payload[self.at:end]
        self.at = end
        return part

    def string(self):
        """The encoding of a string, and its text."""
        colon = self.payload.index(b":", self.at)
        end = colon + 1 + int(self.payload[self.at:colon])
        return self.taken(end), self.payload[colon + 1:end]

    def ended(self):
        if self.payload[self.at] != ord("e"):
            return False
        self.at += 1
        return True

    def value(self):
        kind = chr(self.payload[self.at])
        if kind == "i":
            return self.taken(self.payload.index(b"e", self.at) + 1)
        if kind not in "ld":
            return self.string()[0]
        self.at += 1
        inner = []
        while not self.ended():
            inner.append(self.value() if kind == "l"
                         else (self.string()[1], self.value()))
        return inner if kind == "l" else tuple(inner)


def key_order(entry):
    """Bytes are compared one by one, each as a number from 0 to 255."""
    return list(entry[0])


def written(tree):
    if isinstance(tree, bytes):
        return tree
    if isinstance(tree, list):
        return b"l" + b"".join(map(written, tree)) + b"e"
    return b"d" + b"".join(
        b"%d:%s%s" % (len(key), key, written(value))
        for key, value in sorted(tree, key=key_order)) + b"e"


def sort(payload, room):
    """Code, offset and what is written."""
    if len(payload) > LARGEST_PAYLOAD:
        return TOO_LONG, 0, b""
    code, offset = walk(payload, False)
    if code:
        return code, offset, b""
    if room < len(payload):
        return NO_ROOM, 0, b""
    return 0, 0, written(Reader(payload).value())


# What a payload means, without the tree above.

def meaning(payload):
    """The value of a sound payload in Python's own types.

    Integers, bytes, lists and dicts of two kinds are never equal, and dicts
    are equal as maps.
    """
    opened, at = [[]], 0
    kinds = b""
    while at < len(payload):
        byte = payload[at:at + 1]
        if byte in (b"l", b"d"):
            opened.append([])
            kinds += byte
            at += 1
            continue
        if byte == b"e":
            made, at = opened.pop(), at + 1
            if kinds.endswith(b"d"):
                made = {made[n]: made[n + 1] for n in range(0, len(made), 2)}
            kinds = kinds[:-1]
        elif byte == b"i":
            digits = payload[at + 1:payload.index(b"e", at)]
            made, at = int(digits), at + len(digits) + 2
        else:
            digits = payload[at:payload.index(b":", at)]
            start = at + len(digits) + 1
            at = start + int(digits)
            made = payload[start:at]
        opened[-1].append(made)
    return opened[0][0]


def same_value(one, other):
    return meaning(one) == meaning(other)


# The line of the conformance program: room in 4 bytes, and the payload.

def line(body):
    if len(body) < 4:
        return FAULT
    code, offset, out = sort(body[4:], int.from_bytes(body[:4], "little"))
    text = "%d %d %d" % (code, offset, len(out))
    return text + " " + out.hex() if out else text


# Payload and what is written, by hand.
SORTED = [
    (b"i-7e", b"i-7e"),
    (b"0:", b"0:"),
    (b"le", b"le"),
    (b"de", b"de"),
    (b"d1:bi1e1:ai2ee", b"d1:ai2e1:bi1ee"),
    (b"d1:ai2e1:bi1ee", b"d1:ai2e1:bi1ee"),
    # By bytes: not by length, nor by the digits of the length.
    (b"d1:b0:2:aa0:e", b"d2:aa0:1:b0:e"),
    (b"d1:b0:10:aaaaaaaaaa0:2:ab0:e", b"d10:aaaaaaaaaa0:2:ab0:1:b0:e"),
    (b"d2:aa0:1:a0:0:0:e", b"d0:0:1:a0:2:aa0:e"),
    (b"d2:\xc3\xa40:1:\x7f0:1:z0:e", b"d1:z0:1:\x7f0:2:\xc3\xa40:e"),
    (b"d4:\xf0\x90\x80\x800:3:\xef\xbf\xbf0:e",
     b"d3:\xef\xbf\xbf0:4:\xf0\x90\x80\x800:e"),
    # Every level, in lists too; a list keeps its order.
    (b"d1:bd1:d0:1:c0:e1:alee", b"d1:ale1:bd1:c0:1:d0:ee"),
    (b"li2ei1ed1:b1:y1:a1:xei0ee", b"li2ei1ed1:a1:x1:b1:yei0ee"),
    (b"d1:blld1:y0:1:x0:eee1:a0:e", b"d1:a0:1:blld1:x0:1:y0:eeee"),
    # What looks like entries in a string stays.
    (b"l12:1:b0:1:a0:xxe", b"l12:1:b0:1:a0:xxe"),
]

# Payload, room, code and offset.
REFUSED = [
    (b"", 0, 5, 0),
    (b"i7", 9, 5, 2),
    (b"i9223372036854775808e", 0, 6, 0),
    (b"l" * 17, 0, 7, 16),
    (b"d1:bi1e1:ai2e1:bi3ee", 0, 8, 13),
    (b"i7ee", 0, 9, 3),
    (b"d1:b0:1:\xff0:e", 99, 10, 6),
    (b"i7e", 2, 44, 0),
    (b"d1:b0:1:a0:e", 11, 44, 0),
    (b"32762:" + b"x" * 32762, 32767, 44, 0),
    (b"32763:" + b"x" * 32763, 40000, 4, 0),
    (b"x" * 32769, 0, 4, 0),
    (b"x" * 32768, 0, 5, 0),
]

SAME = [
    (b"d1:ai1e1:bi2ee", b"d1:bi2e1:ai1ee"),
    (b"ld1:a0:1:bd1:x0:1:y0:eee", b"ld1:bd1:y0:1:x0:e1:a0:ee"),
    (b"de", b"de"),
]

OTHER = [
    (b"le", b"de"), (b"le", b"0:"), (b"i0e", b"0:"), (b"i1e", b"1:1"),
    (b"li1ei2ee", b"li2ei1ee"), (b"lle0:e", b"ll0:ee"),
    (b"d1:ai1e1:bi2ee", b"d1:ai2e1:bi1ee"), (b"d1:a0:e", b"d1:a0:1:b0:e"),
    (b"d1:ad1:b0:ee", b"d1:ade1:b0:e"), (b"d1:ale1:bdee", b"d1:ade1:blee"),
]


def self_test():
    for payload, out in SORTED:
        assert sort(payload, len(payload)) == (0, 0, out), payload
        assert sort(out, len(out) + 1) == (0, 0, out), payload
        assert walk(out, True) == (0, len(payload)), payload
    for payload, room, code, offset in REFUSED:
        assert sort(payload, room) == (code, offset, b""), payload[:40]
    for pairs, same in ((SAME, True), (OTHER, False)):
        for one, other in pairs:
            assert same_value(one, other) == same, (one, other)
            outs = [sort(payload, 99)[2] for payload in (one, other)]
            assert (outs[0] == outs[1]) == same, (one, other)
    assert line(b"\x0e\0\0\0d1:bi1e1:ai2ee") == (
        "0 0 14 " + b"d1:ai2e1:bi1ee".hex())
    assert line(b"\x0d\0\0\0d1:bi1e1:ai2ee") == "44 0 0"
    assert line(b"\0\x01\0\0" + b"i7e") == "0 0 3 693765"
    assert line(b"\0\0\0\0" + b"li7e") == "5 4 0"
    assert line(b"\0\0\0") == FAULT
    print("self-test passed:", len(SORTED) + len(REFUSED), "payloads,",
          len(SAME) + len(OTHER), "pairs")


if __name__ == "__main__":
    if sys.argv[1:] != ["--self-test"]:
        sys.exit("usage: python3 -B -m oracle.canonical --self-test")
    self_test()
