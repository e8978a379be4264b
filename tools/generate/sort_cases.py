"""Payloads for the sorter, with rooms: part of the cases of payload_cases.

sort_cases(walked) and largest_cases() yield cases: `o`, whose body is a room
(4 bytes) and a payload, and `s`, a strict walk of what a sorter writes.
walked are payloads of other cases, some of which are sorted too.
"""

import itertools
import struct

from generate.chance import Chance
from generate.encoded import (
    dictionary, integer, listing, mutated, nested, random_value, string)
from generate.key_texts import random_key, run
from oracle.canonical import LARGEST_PAYLOAD, sort
from oracle.payload import is_text

MAX_ROOM = 131072
LAST_CHARACTER = b"\xf4\x8f\xbf\xbf"


def case(payload, room):
    return b"o", struct.pack("<I", room) + payload


# Orders of keys.

# Each set has a pair that a wrong order takes the other way round: by length,
# by the digits of the length, by signed bytes, by UTF-16, by letters of any
# case, or by a few bytes alone.
KEY_SETS = [
    [b"a", b"b", b"aa", b"ab"],
    [b"", b"a", b"aa", b"aaa"],
    [b"b", b"aa", b"aaa", b"aaaaaaaaaa"],
    [b"x" * 9, b"x" * 10, b"y" * 9, b"w" * 10],
    [b"~", b"\x7f", b"\xc2\x80", LAST_CHARACTER],
    [b"a", b"a\x7f", b"a\xc3\xa4", b"\xc3\xa4a"],
    [b"\xdf\xbf", b"\xe0\xa0\x80", b"\xef\xbf\xbf", b"\xf0\x90\x80\x80"],
    [b"\x01", b"\t", b" ", b"-"],
    [b"B", b"a", b"b", b"A"],
    [b"1:a", b"e", b"d", b"i1e"],
    [b"0", b"1", b"10", b"9"],
    [b"abcdefgh", b"abcdefgha", b"abcdefgi", b"abcdefg"],
]
KEYS = [b"", b"\x01", b" ", b"0", b"1", b"10", b"9", b":", b"A", b"a", b"aa",
        b"ab", b"b", b"e", b"x" * 9, b"x" * 10, b"\x7f", b"\xc2\x80",
        b"\xef\xbf\xbf", b"\xf0\x90\x80\x80"]
VALUES = [b"i0e", b"1:v", b"d1:y0:1:x0:e", b"li2ei1ee"]


def key_orders():
    for keys in KEY_SETS:
        for order in itertools.permutations(keys):
            yield dictionary(*zip(order, VALUES))
    for one, two in itertools.permutations(KEYS, 2):
        yield dictionary((one, b"i1e"), (two, b"i2e"))


def common_prefixes():
    """Keys that differ after so many bytes, or in one byte of seventeen."""
    for size in (*range(41), 98, 99, 100, 256):
        text = run(size)
        yield dictionary(*((text + end, integer(at)) for at, end in enumerate(
            (b"\xc3\xa4", b"b", b"a", b"ab", b"aa", b""))))
    for at in range(17):
        keys = [run(at) + first + other * (16 - at)
                for first, other in ((b"b", b"a"), (b"a", b"b"))]
        yield dictionary(*zip(keys, VALUES))
        yield dictionary(*zip(keys[::-1], VALUES))


def many_keys(chance):
    for count in (2, 3, 5, 8, 20, 90):
        rising = [b"%d" % (100 + 7 * n) for n in range(count)]
        half = count // 2
        for order in (rising, rising[::-1], rising[1:] + rising[:1],
                      rising[-1:] + rising[:-1], rising[half:] + rising[:half],
                      rising[:half] + rising[:half - 1:-1],
                      rising[::2] + rising[1::2], chance.shuffled(rising)):
            yield dictionary(*((key, chance.pick(VALUES)) for key in order))


def random_keys(chance, count):
    """Keys with characters of all lengths."""
    for _ in range(count):
        keys = dict.fromkeys(random_key(chance) for _ in range(5))
        yield dictionary(*zip(keys, itertools.cycle(VALUES)))


# Shapes.

FALLING = b"d1:b0:1:a0:e"
SHAPES = [
    b"i0e", b"i-1e", b"i9223372036854775807e", b"0:", b"1:\xff", b"3:\x00de",
    b"le", b"de", b"ldelee", b"d0:dee", b"d0:lee", b"d1:alee",
    b"d1:bde1:alee", b"d1:b0:1:ai0ee", b"d1:ble0:dee", FALLING,
    listing(FALLING), listing(listing(FALLING)), listing(FALLING, FALLING),
    listing(b"de", FALLING, b"le", FALLING, b"de"),
    listing(b"i3e", b"i1e", b"i2e"), listing(b"1:b", b"1:a", b"0:"),
    listing(b"d1:b0:e", b"d1:a0:e"), listing(b"le", b"de", b"i0e", b"0:"),
    listing(b"li2ei1ee", b"li1ei2ee", b"l1:b1:ae"),
    dictionary((b"b", FALLING), (b"a", FALLING)),
    dictionary((b"a", FALLING), (b"b", FALLING)),
    dictionary((b"b", listing(FALLING, b"i1e")), (b"a", b"li2ei1ee")),
    dictionary((b"k", listing(listing(FALLING), FALLING)), (b"j", b"de")),
    dictionary((b"c", b"de"), (b"b", b"le"), (b"a", dictionary(
        (b"c", b"de"), (b"b", b"le"), (b"a", FALLING)))),
    # Strings that look like entries or values.
    listing(string(FALLING)),
    dictionary((b"b", string(FALLING)), (b"a", b"0:")),
    dictionary((b"1:b0:", b"0:"), (b"1:a0:", b"0:")), string(b"d1:b0:"),
    dictionary((b"e", b"0:"), (b"d", b"1:e"), (b"", b"2:ee")),
    # Long entries before short ones and the other way round.
    dictionary((b"b", string(b"x" * 300)), (b"a", b"0:")),
    dictionary((b"b", b"0:"), (b"a", string(b"x" * 300))),
    dictionary((b"y" * 120, b"0:"), (b"x", string(b"\xff" * 99))),
    # Messages, and the handshake of the IPC text.
    b"d7:versiond3:mini1e3:maxi2eee", b"d4:quit0:3:foo0:e",
    b"l4:infold4:name3:foo2:idi3eed2:idi9e4:hash3:bareei7ee",
    b"l6:statusld5:state6:paused2:idi3e5:error0:eee",
]

OPEN = {"l": b"l", "u": b"d1:bi1e1:a", "d": b"d1:a"}


def tower(kinds, core):
    """core inside a list for each l, a dictionary for each d, and one whose
    keys fall for each u."""
    return b"".join(OPEN[kind] for kind in kinds) + core + b"e" * len(kinds)


def levels():
    for depth in (1, 2, 3, 7, 8, 9, 14, 15, 16, 17):
        for kinds in ("u" * depth, ("lu" * depth)[:depth],
                      ("ul" * depth)[:depth]):
            yield tower(kinds, b"0:")
            yield tower(kinds, b"le")
            yield tower(kinds[1:], FALLING)
            yield tower(kinds, FALLING)
    for other in "dl":
        for at in range(16):
            yield tower(other * at + "u" + other * (15 - at), b"0:")
    for depth in range(15):
        yield listing(tower("l" * depth, FALLING), tower("d" * depth, FALLING))
        yield dictionary((b"b", tower("u" * depth, b"0:")),
                         (b"a", tower("l" * depth, FALLING)))


# Refusals.

BAD = [
    b"", b"x", b"e", b"-", b"i", b"ie", b"i-0e", b"i03e", b"i1", b"i-", b"ixe",
    b"5:ab", b"05:abcde", b"00:", b"1", b"18446744073709551617:a",
    b"i9223372036854775808e", b"i-9223372036854775809e",
    b"i" + b"9" * 30 + b"e",
    b"l", b"d", b"dle", b"di1e0:e", b"d1:ae", b"d1:b0:1:", b"d1:b0:1:a",
    b"d1:a0:1:a0:e", b"d1:b0:1:a0:1:b0:e", b"d1:b0:1:a0:1:a0:e", b"d0:0:0:0:e",
    b"d1:\xff0:e", b"d1:b0:1:\x000:e", b"d2:b\xc3i1e1:a0:e", b"d1:\x80",
    b"d3:\xed\xa0\x800:e", b"l" * 17, nested("d" * 17, b"0:"),
]
TAILS = [b"e", b"x", b"0:", b"i1e", b"de", b"\x00", b"d1:a0:1:a0:e", b"l" * 17]


def refused():
    """Every fault at several places, with room and without."""
    for bad in BAD:
        for payload in (
            bad, listing(bad), listing(FALLING, bad), listing(bad, FALLING),
            dictionary((b"b", bad), (b"a", b"0:")),
            dictionary((b"b", b"0:"), (b"a", bad)),
            dictionary((b"b", FALLING), (b"a", listing(bad))),
            tower("u" * 3, bad), tower("lu" * 7, bad), tower("d" * 15, bad),
            listing(bad, b"i9223372036854775808e"),
            listing(b"i9223372036854775808e", bad), bad + b"e",
        ):
            yield case(payload, 0)
            yield case(payload, len(payload))
    for payload in (b"i0e", b"0:", b"le", b"de", FALLING, listing(FALLING),
                    tower("u" * 16, b"0:")):
        for number, tail in enumerate(TAILS):
            whole = payload + tail
            yield case(whole, (0, len(payload), len(whole))[number % 3])


def key_faults():
    """8 and 10 at every place of dictionaries whose keys fall or are mixed."""
    for letters in (b"edcba", b"caebd", b"abcde"):
        keys = [bytes([letter]) for letter in letters]
        for one, two in itertools.combinations(range(5), 2):
            again = [*keys]
            again[two] = keys[one]
            yield dictionary(*((key, b"0:") for key in again))
        for at, bad in itertools.product(range(5), (b"\xff", b"a\x00")):
            yield dictionary(*((key, b"0:") for key in (
                *keys[:at], bad, *keys[at:])))
            yield dictionary(*((key, b"de") for key in (
                *keys[:at], bad, *keys[at:], keys[0])))
    for text in (b"\x80", b"\xc0\x80", b"\xc3", b"\xe2\x82", b"\xf5",
                 b"\xf4\x90\x80\x80", b"\xed\xbf\xbf", b"\x00"):
        assert not is_text(text)
        yield dictionary((text, b"0:"), (b"a", b"0:"))
        yield dictionary((b"b", b"0:"), (b"a" + text, b"0:"))
        # Free as a value.
        yield dictionary((b"b", string(text)), (b"a", listing(string(text))))


def rooms():
    for payload in (b"i7e", b"0:", b"le", b"de", b"d0:0:e", FALLING,
                    listing(FALLING, b"i1e"), tower("u" * 16, b"0:"),
                    dictionary((b"b", string(b"x" * 99)), (b"a", b"0:")),
                    b"d7:versiond3:mini1e3:maxi2eee"):
        size = len(payload)
        for room in (0, 1, size - 1, size, size + 1, size + 8, 2 * size, 256,
                     LARGEST_PAYLOAD, MAX_ROOM):
            yield case(payload, room)


CUT = [
    FALLING, listing(FALLING, b"i-7e"), b"d7:versiond3:mini1e3:maxi2eee",
    dictionary((b"b", listing(FALLING)), (b"\xc3\xa4", b"i0e"), (b"a", b"de")),
    dictionary((b"aa", b"3:xyz"), (b"a", FALLING), (b"", b"le")),
    tower("uluu", FALLING),
    b"l4:infold4:name3:foo2:idi3eed2:idi9e4:hash3:bareei7ee",
]


def damaged(chance, count):
    for whole in CUT:
        for size in range(len(whole)):
            yield whole[:size]
            yield whole[:size] + whole[size + 1:]
    for _ in range(count):
        whole = (chance.pick(CUT) if chance.below(3)
                 else random_value(chance, 9))
        yield mutated(chance, whole)
        yield mutated(chance, mutated(chance, whole) or b"e")


# About the largest payload.

def pair(number):
    """Keys of two printable bytes, rising with the number."""
    return bytes(33 + digit for digit in divmod(number, 94))


def filled(size, entries):
    """A dictionary of so many bytes: as many of the entries as fit, and then
    the empty key with a string that fills it."""
    made, left = [], size - 2
    for key, value in entries:
        if left < len(string(key) + value) + 20:
            break
        made.append((key, value))
        left -= len(string(key) + value)
    whole = dictionary(*made, (b"", string(b"f" * (left - len("0:12:")))))
    assert len(whole) == size
    return whole


def falling(size):
    """Falling keys with empty strings; the greatest key has the bytes left."""
    count = (size - 2) // 6
    first = (pair(count - 1), string(b"x" * (size - 2 - 6 * count)))
    rest = ((pair(count - 2 - n), b"0:") for n in range(count - 1))
    whole = dictionary(first, *rest)
    assert len(whole) == size
    return whole


# A sorter may take entries times bytes, so only one payload has thousands.
FILL = string(FALLING * 2)


def shuffled(chance, size):
    numbers = chance.shuffled(range(2000))
    return filled(size, ((b"key" + pair(n), FILL) for n in numbers))


def nested_falling(size):
    """Sixteen dictionaries in each other, each with falling keys after the
    inner one."""
    inner = b"0:"
    for level in range(1, 17):
        numbers = range(8000, 0, -1)
        inner = filled(size * level // 16, itertools.chain(
            [(b"~~~", inner)], ((pair(n), FILL) for n in numbers)))
    return inner


def long_string(size):
    text = FALLING * 6000
    head = b"d1:b%d:" % (size - 16)
    whole = head + text[:size - 16] + b"1:a0:e"
    assert len(whole) == size
    return whole


def largest(chance):
    most = LARGEST_PAYLOAD
    whole = long_string(most)
    yield case(whole, most)
    yield case(whole, most - 1)
    # A fault in the last byte, with less room than is needed.
    yield case(whole[:-1] + b"x", most - 1)
    # One byte more: 4, whatever the payload and the room.
    yield case(long_string(most + 1), MAX_ROOM)
    yield case(falling(most + 1), most)
    yield case(whole + b"e", most + 1)
    yield case(b"x" * (most + 1), 0)
    # A length that 16 bits would take for 14.
    yield case(long_string(65536 + 14), 65536 + 14)
    yield case(nested_falling(most), most)
    yield case(shuffled(chance, most), most)
    # The last key again, with less room than is needed.
    yield case(falling(most)[:-7] + b"2:" + pair(1) + b"0:e", most - 1)
    yield case(falling(most), most)


def plain(payloads, chance):
    """Payloads with as much room as they need, and a few with another."""
    for payload in payloads:
        size = len(payload)
        other = chance.pick((0, size - 1, size + 1, size + 9))
        yield case(payload, size if chance.below(8) else max(other, 0))


def some(walked):
    """Short payloads of the walks, one of sixteen."""
    return [payload for payload in walked if len(payload) <= 60][::16]


def sort_cases(walked):
    chance = Chance(0xE7037ED1A0B428DB)
    exact = itertools.chain(
        SHAPES, key_orders(), common_prefixes(), many_keys(chance), levels(),
        random_keys(chance, 60))
    free = itertools.chain(key_faults(), damaged(chance, 300), some(walked))
    made = dict.fromkeys(itertools.chain(
        (case(payload, len(payload)) for payload in exact), rooms(),
        refused(), plain(free, chance)))
    yield from made
    yield from again(made)


def largest_cases():
    """The costliest last."""
    made = list(largest(Chance(0x589965CC75374CC3)))
    yield from again(made)
    yield from made


def again(made):
    """What is written, walked by the strict profile; and sorted again, every
    third that is short and not the payload itself."""
    changed = []
    for _, body in made:
        payload = body[4:]
        out = sort(payload, int.from_bytes(body[:4], "little"))[2]
        if out:
            yield b"s", out
        if out != payload and 0 < len(out) < 120:
            changed.append(case(out, len(out)))
    yield from changed[::3]
