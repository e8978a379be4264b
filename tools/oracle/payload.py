"""Oracle for the payload walker: a recursive descent parser of bencoding.

walk(payload, strict) gives (0, length) for exactly one sound value, else the
code of the first fault and its offset from the payload's start:

  5   a byte cannot stand there, or the payload ends too soon
  6   a well-formed integer is outside the signed 64-bit range
  7   a 17th level opens
  8   a key comes twice in one dictionary
  9   bytes follow the value
  10  a key is no text: not well-formed UTF-8, or with a zero byte
  11  strict profile only: a key is not above the one before it

In tools/, python3 -B -m oracle.payload --self-test checks the examples of the
rules, and texts against the syntax of RFC 3629.
"""

import itertools
import random
import sys

MALFORMED, RANGE, DEPTH, REPEATED, TRAILING = 5, 6, 7, 8, 9
ILL_FORMED, UNSORTED = 10, 11
MAX_LEVELS = 16
INT_MIN, INT_MAX = -(2**63), 2**63 - 1
DIGITS = frozenset(b"0123456789")


class Fault(Exception):
    """The first fault met from left to right."""

    def __init__(self, code, offset):
        super().__init__(code, offset)
        self.code = code
        self.offset = offset


def is_text(key):
    """Whether a key is well-formed UTF-8 (RFC 3629) with no zero byte."""
    try:
        key.decode("utf-8", "strict")
    except UnicodeDecodeError:
        return False
    return 0 not in key


class Parser:
    """Parses one payload; every method starts at self.pos and moves it on."""

    def __init__(self, payload, strict):
        self.payload = payload
        self.strict = strict
        self.pos = 0

    def peek(self):
        """The byte at pos; a byte is needed here, so the end is a fault."""
        if self.pos == len(self.payload):
            raise Fault(MALFORMED, self.pos)
        return self.payload[self.pos]

    def expect(self, char):
        """Step over one given byte."""
        if self.peek() != ord(char):
            raise Fault(MALFORMED, self.pos)
        self.pos += 1

    def decimal(self):
        """Digits without a leading zero, as bytes; a zero stands alone.

        What follows the digits is left to the caller, so the byte after a
        leading zero is refused there.
        """
        start = self.pos
        if self.peek() not in DIGITS:
            raise Fault(MALFORMED, self.pos)
        if self.peek() == ord("0"):
            self.pos += 1
        else:
            while self.peek() in DIGITS:
                self.pos += 1
        return self.payload[start:self.pos]

    def integer(self):
        start = self.pos
        self.expect("i")
        sign = 1
        if self.peek() == ord("-"):
            sign = -1
            self.pos += 1
            if self.peek() == ord("0"):
                raise Fault(MALFORMED, self.pos)
        digits = self.decimal()
        self.expect("e")
        # The form is sound; only now the range. 20 digits are always outside.
        if len(digits) > 19 or not INT_MIN <= sign * int(digits) <= INT_MAX:
            raise Fault(RANGE, start)

    def string(self):
        """The string's bytes."""
        digits = self.decimal()
        self.expect(":")
        left = len(self.payload) - self.pos
        # A length with more digits than the room left is larger than it.
        if len(digits) > len(str(left)) or int(digits) > left:
            raise Fault(MALFORMED, len(self.payload))
        start = self.pos
        self.pos += int(digits)
        return self.payload[start:self.pos]

    def list(self, levels):
        self.expect("l")
        while self.peek() != ord("e"):
            self.value(levels)
        self.expect("e")

    def dictionary(self, levels):
        self.expect("d")
        keys = []
        known = set()
        while self.peek() != ord("e"):
            start = self.pos
            key = self.string()
            if not is_text(key):
                raise Fault(ILL_FORMED, start)
            if key in known:
                raise Fault(REPEATED, start)
            if self.strict and keys and key <= keys[-1]:
                raise Fault(UNSORTED, start)
            keys.append(key)
            known.add(key)
            self.value(levels)
        self.expect("e")

    def value(self, levels):
        """One value inside so many open lists and dictionaries."""
        kind = self.peek()
        if kind in b"ld":
            if levels == MAX_LEVELS:
                raise Fault(DEPTH, self.pos)
            if kind == ord("l"):
                self.list(levels + 1)
            else:
                self.dictionary(levels + 1)
        elif kind == ord("i"):
            self.integer()
        else:
            self.string()


def walk(payload, strict):
    """(0, length) for one sound value, else (code, offset) of the fault."""
    parser = Parser(payload, strict)
    try:
        parser.value(0)
        if parser.pos < len(payload):
            raise Fault(TRAILING, parser.pos)
    except Fault as fault:
        return fault.code, fault.offset
    return 0, len(payload)


# Payload, code and offset, alike in both profiles.
SAME_IN_BOTH = [
    # Frames to try.
    (b"", 5, 0),
    (b"l5:startli8eei15ee"[:16], 5, 16),
    (b"l5:startli8eei15ee", 0, 18),
    (b"i-0e", 5, 2),
    (b"i7e", 0, 3),
    (b"i9223372036854775808e", 6, 0),
    (b"d1:ai1e1:ai2ee", 8, 7),
    (b"l4:porti65536ee", 0, 15),
    (b"l4:porti65535ee", 0, 15),
    (b"l" * 16 + b"e" * 16, 0, 32),
    (b"l" * 17 + b"e" * 17, 7, 16),
    # Easy ways to go wrong.
    (b"d4:porti51413ee", 0, 15),
    (b"d4:porti51413ee"[:14], 5, 14),
    # The ninth letter, d, opens a dictionary with the empty key.
    (b"l8:succeeded0:i15ee", 5, 19),
    (b"l9:succeeded0:i15ee", 0, 19),
    # The sixth letter, e, closes the list.
    (b"l5:removeli3ei8ei6eee", 9, 9),
    (b"l6:removeli3ei8ei6eee", 0, 21),
    # Integers: form, then range.
    (b"i9223372036854775807e", 0, 21),
    (b"i-9223372036854775808e", 0, 22),
    (b"i-9223372036854775809e", 6, 0),
    (b"li1ei18446744073709551623ee", 6, 4),
    (b"i9999999999999999999999x", 5, 23),
    (b"i9999999999999999999999", 5, 23),
    (b"i" + b"9" * 5000 + b"e", 6, 0),
    (b"i0e", 0, 3),
    (b"i03e", 5, 2),
    (b"i00e", 5, 2),
    (b"i-03e", 5, 2),
    (b"ie", 5, 1),
    (b"i-e", 5, 2),
    (b"i--1e", 5, 2),
    (b"i+1e", 5, 1),
    (b"i1-e", 5, 2),
    (b"i", 5, 1),
    (b"i-", 5, 2),
    (b"i0", 5, 2),
    (b"i-0", 5, 2),
    # Strings.
    (b"0:", 0, 2),
    (b"5:abcde", 0, 7),
    (b"5:abcd", 5, 6),
    (b"05:abcde", 5, 1),
    (b"00:", 5, 1),
    (b"5", 5, 1),
    (b"5:", 5, 2),
    (b"5x", 5, 1),
    (b"18446744073709551621:abcde", 5, 26),
    (b"9" * 40, 5, 40),
    (b"9" * 40 + b"x:", 5, 40),
    (b"9" * 5000 + b":x", 5, 5002),
    (b":", 5, 0),
    (b"-1:a", 5, 0),
    # Lists, dictionaries and levels.
    (b"l", 5, 1),
    (b"d", 5, 1),
    (b"e", 5, 0),
    (b"x", 5, 0),
    (b"lx", 5, 1),
    (b"de", 0, 2),
    (b"d0:0:e", 0, 6),
    (b"dle", 5, 1),
    (b"dde", 5, 1),
    (b"di1ei2ee", 5, 1),
    (b"d1:ae", 5, 4),
    (b"d1:a", 5, 4),
    (b"l" * 16, 5, 16),
    (b"l" * 17, 7, 16),
    (b"d0:" * 16 + b"d", 7, 48),
    (b"l" * 15 + b"dl", 5, 16),
    (b"d0:i1e0:x", 8, 6),
    (b"d1:ai1e1:a", 8, 7),
    (b"d1:ai1e1:", 5, 9),
    (b"d1:ai1e1:bx", 5, 10),
    (b"d1:ad1:ai1eee", 0, 13),
    # Keys are text: 10 once the key is all there, before anything after it.
    (b"d1:\xff", 10, 1),
    (b"d2:\xff", 5, 4),
    (b"d1:\x00i0ee", 10, 1),
    (b"d3:a\x00bi0ee", 10, 1),
    (b"d1:\xffx", 10, 1),
    (b"d1:\xffi9223372036854775808ee", 10, 1),
    (b"d1:\xff0:eee", 10, 1),
    (b"d01:\xff0:e", 5, 2),
    (b"d1:\xff0:1:\xff0:e", 10, 1),
    (b"d1:a0:1:a0:1:\xff0:e", 8, 6),
    (b"d1:a0:1:\xff0:1:a0:e", 10, 6),
    (b"li9223372036854775808ed1:\xff0:ee", 6, 1),
    (b"l" * 15 + b"d1:\xffle" + b"e" * 16, 10, 16),
    (b"l" * 17 + b"d1:\xff", 7, 16),
    (b"ld1:ald1:\x800:eeee", 10, 7),
    (b"d2:\xc3\xa40:4:\xf4\x8f\xbf\xbf0:e", 0, 16),
    (b"d3:\xef\xbb\xbf0:3:\xef\xbf\xbf0:e", 0, 16),
    # Strings that are no keys are free.
    (b"1:\xff", 0, 3),
    (b"l1:\x001:\xffe", 0, 8),
    (b"d1:a1:\xffe", 0, 8),
    # Bytes after the value.
    (b"i1ee", 9, 3),
    (b"0:0:", 9, 2),
    (b"le\x00", 9, 2),
]

# Payload, answer of the loose profile, answer of the strict one.
DIFFERENT = [
    (b"d7:versiond3:mini1e3:maxi2eee", (0, 29), (11, 19)),
    (b"d1:bi1e1:ai2ee", (0, 14), (11, 7)),
    (b"d1:bi1e1:a", (5, 10), (11, 7)),
    (b"d2:aa0:1:a0:e", (0, 13), (11, 7)),
    (b"d1:a0:0:0:e", (0, 11), (11, 6)),
    (b"d2:\xc2\x800:1:\x7f0:e", (0, 13), (11, 7)),
    (b"d1:b0:1:a0:1:b0:e", (8, 11), (11, 6)),
    # 8 goes before 11 at the same key.
    (b"d1:a0:1:b0:1:a0:e", (8, 11), (8, 11)),
    # 10 goes before 11 at the same key, and 11 at an earlier one before it.
    (b"d1:b0:2:a\xff0:e", (10, 6), (10, 6)),
    (b"d1:b0:1:a0:1:\xff0:e", (10, 11), (11, 6)),
    # Bytes decide, not their number.
    (b"d2:aa0:1:b0:e", (0, 13), (0, 13)),
]


# The characters of RFC 3629, section 4: the first and the last of each byte.
TAIL = (0x80, 0xBF)
CHARACTERS = [
    [(0x00, 0x7F)],
    [(0xC2, 0xDF), TAIL],
    [(0xE0, 0xE0), (0xA0, 0xBF), TAIL],
    [(0xE1, 0xEC), TAIL, TAIL],
    [(0xED, 0xED), (0x80, 0x9F), TAIL],
    [(0xEE, 0xEF), TAIL, TAIL],
    [(0xF0, 0xF0), (0x90, 0xBF), TAIL, TAIL],
    [(0xF1, 0xF3), TAIL, TAIL, TAIL],
    [(0xF4, 0xF4), (0x80, 0x8F), TAIL, TAIL],
]


def is_character(data):
    return any(len(data) == len(ranges) and all(
        low <= byte <= high for byte, (low, high) in zip(data, ranges))
        for ranges in CHARACTERS)


def has_syntax(key):
    """Whether a key is characters by the table, none of them zero."""
    at = 0
    while at < len(key):
        size = next((size for size in range(1, 5)
                     if is_character(key[at:at + size])), None)
        if size is None or key[at] == 0:
            return False
        at += size
    return True


# Bytes about the ends of the table's ranges.
ENDS = sorted({byte for ranges in CHARACTERS for low, high in ranges
               for byte in (low - 1, low, high, high + 1)
               if 0 <= byte <= 255} | {1, 0x61, 0xC1, 0xFE, 0xFF})


def texts():
    """Short texts of all shapes, and random ones."""
    for size in range(4):
        yield from itertools.product(ENDS, repeat=size)
    tails = (0x7F, 0x80, 0xBF, 0xC0)
    yield from itertools.product(range(0xEF, 0xF6), ENDS, tails, tails)
    chance = random.Random(3629)
    for _ in range(20000):
        yield [chance.choice(ENDS) for _ in range(chance.randrange(9))]
        above = chance.choice((0x80, 0x800, 0x10000, 0x110000))
        yield chr(chance.randrange(above)).encode("utf-8", "surrogatepass")


def self_test():
    for text in map(bytes, texts()):
        assert is_text(text) == has_syntax(text), text
    for payload, code, offset in SAME_IN_BOTH:
        for strict in (False, True):
            answer = walk(payload, strict)
            assert answer == (code, offset), (payload, strict, answer)
    for payload, loose, strict in DIFFERENT:
        answers = (walk(payload, False), walk(payload, True))
        assert answers == (loose, strict), (payload, answers)
    print("self-test passed:", len(SAME_IN_BOTH) + len(DIFFERENT), "payloads")


if __name__ == "__main__":
    if sys.argv[1:] != ["--self-test"]:
        sys.exit("usage: python3 -B -m oracle.payload --self-test")
    self_test()
