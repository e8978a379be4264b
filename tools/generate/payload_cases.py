"""Makes the stored cases of payload_cases, and their lines.

A case is one byte of operation, a length in 4 bytes, little-endian, and so
many bytes of body. Operations: l and s walk a payload in the loose and in the
strict profile, and their line is the code and the offset that
oracle.payload.walk gives; L and S are the same by the walker with one loop,
on every payload of l and of s; o sorts one, and its line is that of
oracle.canonical. The last case is cut short.

In tools/, python3 -B -m generate.payload_cases FOLDER writes FOLDER/stdin and
FOLDER/stdout: the same on every run, since all choices come from a fixed seed.
With a number N after FOLDER it writes every N-th case only, and the cut one,
for `rt try`, where what a program prints and the steps it takes are bounded:
151 is within the bounds. An odd N meets both profiles, which often stand by
turns.
"""

import itertools
import pathlib
import struct
import sys

from generate.chance import Chance
from generate.encoded import (
    REPLACEMENTS, dictionary, integer, listing, mutated, nested, random_value,
    string)
from generate.key_texts import (
    CHOSEN, KEY_TEXTS, MIDDLES, damaged, random_key, run)
from generate.level_cases import level_payloads
from generate.sort_cases import case, largest_cases, sort_cases
from generate.value_pairs import value_pairs
from oracle.canonical import line, same_value, sort
from oracle.payload import walk

MAX_BODY = 131072
SIZE_LIMIT = 6000000


# Named payloads.

SCOPE = [
    b"", b"d7:versiond3:mini1e3:maxi2eee", b"l5:startli8eei15ee", b"i-0e",
    b"l5:startli8eei15ee"[:16], b"i7e", b"i9223372036854775808e",
    b"d1:ai1e1:ai2ee", b"l4:porti65536ee", b"l4:porti65535ee",
    b"l" * 16 + b"e" * 16, b"l" * 17 + b"e" * 17,
    b"l9:downlimiti-1ee", b"l7:uplimiti-1ee", b"l4:stopli3eee",
    b"l5:startli8eee", b"l9:downlimiti200ee", b"l7:uplimiti50ee",
    b"00000012l5:startli8eei15ee",
]

# Frames of the IPC text as they stand: length, payload, corrected payload.
FRAMES = [
    (0x0E, b"d4:porti51413ee", None),
    (0x1E, b"l12:get-info-alll4:hashee", None),
    (0x21, b"l12:get-info-alll4:hashei5ee", None),
    (0x1D, b"d7:versiond3:mini1e3:maxi2eee", None),
    (0x10, b"l5:startli8eei15ee", None),
    (0x11, b"l8:succeeded0:i15ee", b"l9:succeeded0:i15ee"),
    (0x1D, b"d7:versiond3:mini1e3:maxi1eee", None),
    (0x0B, b"d4:quit0:e", None),
    (0x0E, b"l8:stop-all5:fnorde", None),
    (0x17, b"l9:downlimiti100ei47el", b"l9:downlimiti100ei47ee"),
    (0x17, b"l9:uplimiti20ei48ee", b"l7:uplimiti20ei48ee"),
    (0x14, b"l8:succeeded0:i47ee", b"l9:succeeded0:i47ee"),
    (0x14, b"l8:succeeded0:i48ee", b"l9:succeeded0:i48ee"),
    (0x15, b"l13:get-downlimiti0ee", None),
    (0x13, b"l13:get-uplimiti0ee", b"l11:get-uplimiti0ee"),
    (0x0F, b"l9:uplimiti20ee", b"l7:uplimiti20ee"),
    (0x12, b"l9:downlimiti100ee", None),
]

# Key and value examples of the IPC text, here put into a list.
EXAMPLES = [
    b"8:addfilesl21:/torrents/foo.torrent20:/home/me/bar.torrente",
    b"16:addfile-detailedd4:file19:/tor/wooble.torrente",
    b"7:automapi1e", b"9:autostarti0e", b"10:bad-format0:",
    b"9:directory21:/home/roger/downloads", b"9:downlimiti100e",
    b"6:failed17:permission denied", b"11:get-automap0:",
    b"13:get-autostart0:", b"13:get-directory0:", b"13:get-downlimit0:",
    b"8:get-infod2:idli4ei7ei2ee4:typel4:hash4:nameee",
    b"12:get-info-alll4:hash4:namee", b"7:get-pex0:", b"8:get-port0:",
    b"10:get-statusd2:idli4ei7ei2ee4:typel5:state9:completedee",
    b"14:get-status-alll5:state9:completede",
    b"13:get-supportedl6:lookup8:get-port16:addfile-detailede",
    b"11:get-uplimit0:",
    b"6:lookupl40:0f16ea6965ee5133ea4dbb1e7f516e9fcf3d899ee",
    b"4:infold2:idi3e4:name3:fooed2:idi9e4:name3:baree", b"4:noop0:",
    b"13:not-supported0:", b"3:pexi0e", b"4:porti51413e", b"4:quit0:",
    b"5:removeli3ei8ei6ee", b"6:removeli3ei8ei6ee", b"10:remove-all0:",
    b"5:startli3ei8ei6ee", b"9:start-all0:",
    b"4:infold2:idi3e5:state7:seedinged2:idi9e5:state6:pausedee",
    b"4:stopli3ei8ei6ee", b"8:stop-all0:", b"8:succeeded0:",
    b"9:succeeded0:", b"9:supportedl8:get-port6:lookupe", b"7:uplimiti20e",
]

# Short payloads of all shapes; sound in the loose profile, but for keys that
# are no text in three of them.
SOUND = [
    b"i0e", b"i7e", b"i-1e", b"i10e", b"i-90e", b"i9223372036854775807e",
    b"i-9223372036854775808e", b"0:", b"1:a", b"3:abc", b"1:\x00",
    b"2:\xff\x80", b"4:i1ee", b"2:1:", b"10:0123456789", b"3:lde",
    b"le", b"de", b"llee", b"ldee", b"llelee", b"lllleeee", b"l0:e",
    b"l0:0:e", b"l1:ae", b"l2:\x00\xffe", b"li0ee", b"li-1ei1ee",
    b"li5e1:aledee", b"l2:ei1:ee", b"lli1eeli2eee", b"lde0:i0ee",
    b"ldedee", b"l4:noop0:e", b"l3:pexi0ei9ee", b"l4:stopli3ei8eee",
    b"d0:0:e", b"d0:i0ee", b"d0:lee", b"d0:dee", b"d1:ai1ee", b"d1:a0:e",
    b"d1:alee", b"d1:adee", b"d1:a1:ae", b"d2:\x00\xffi-1ee",
    b"d1:ai1e1:bi2ee", b"d1:bi1e1:ai2ee", b"d0:i0e1:ai1ee",
    b"d1:ai0e0:i1ee", b"d1:a0:2:aa0:e", b"d2:aa0:1:a0:e", b"d1:b0:2:aa0:e",
    b"d1:\x7f0:1:\x800:e", b"d1:\x800:1:\x000:e", b"d1:ad1:a0:ee",
    b"d1:ad1:bdee1:bdee", b"d1:ali1ee1:c0:e", b"ld1:aleed1:aleee",
    b"d1:eld1:e0:eee", b"d1:a0:1:b0:1:c0:e", b"d1:b0:1:a0:1:c0:e",
    b"ld1:bi0e1:adeee", b"d3:mini1e3:maxi2ee", b"d7:versioni2ee",
]

def named():
    yield from SCOPE
    for length, payload, corrected in FRAMES:
        yield payload
        yield payload[:length]
        if corrected:
            yield corrected
            yield corrected[:length]
    for example in EXAMPLES:
        yield listing(example)
        yield example


def single_faults(chance):
    """Each short payload with one cut, one byte changed, added or lost."""
    for payload in SOUND:
        yield payload
        for at in range(len(payload)):
            yield payload[:at]
            yield payload[:at] + payload[at + 1:]
            for byte in REPLACEMENTS:
                yield payload[:at] + byte + payload[at + 1:]
        for at in range(len(payload) + 1):
            yield payload[:at] + chance.pick(REPLACEMENTS) + payload[at:]


# Levels.

CORES = [
    b"", b"le", b"de", b"l", b"d", b"i1e", b"3:abc", b"0:", b"x", b"e", b"i1",
    b"i99999999999999999999e", b"d1:ai1e1:bi2ee", b"d1:bi1e1:ai2ee",
    b"d1:ai1e1:ai2ee", b"d1:alee", b"d1:al", b"dle", b"dde", b"di1e0:e",
    b"lle", b"ldee", b"li1elee", b"ledeli1ee",
]


def levels(chance):
    for depth in (1, 2, 3, 14, 15, 16, 17, 18, 20, 40):
        for kinds in ("l" * depth, "d" * depth, ("ld" * depth)[:depth],
                      ("dl" * depth)[:depth],
                      "".join(chance.pick("ld") for _ in range(depth))):
            for core in CORES:
                if depth in (15, 16) or core in (b"", b"le", b"de"):
                    yield nested(kinds, core)
    for depth in (16, 17):
        for kinds in ("l" * depth, "d" * depth, ("dl" * depth)[:depth]):
            whole = nested(kinds[:-1], b"le" if kinds[-1] == "l" else b"de")
            for cut in range(len(whole) - depth - 6, len(whole) + 1):
                yield whole[:cut]
            for byte in REPLACEMENTS:
                at = whole.index(b"e")
                yield whole[:at - 1] + byte + whole[at:]


def branches():
    """Deep branches one after the other, and depth against other faults."""
    for first, second in itertools.product((1, 14, 15, 16), repeat=2):
        for one, two in itertools.product("ld", repeat=2):
            a = nested(one * first, b"0:")
            b = nested(two * second, b"0:")
            yield listing(a, b)
            yield dictionary((b"a", a), (b"b", b))
            yield dictionary((b"b", a), (b"a", b))
            yield dictionary((b"a", a), (b"a", b))
            yield a + b
    deep = nested("l" * 16, b"")
    yield listing(*[nested("l" * 15, b"")] * 20)
    yield listing(*[nested("l" * 15, b"")] * 20 + [deep])
    yield listing(deep, b"x")
    yield listing(b"x", deep)
    yield listing(b"i99999999999999999999e", deep)
    yield listing(deep, b"i99999999999999999999e")
    stairs = b""
    for _ in range(16):
        stairs = listing(b"i1e", stairs, b"le") if stairs else b"le"
    yield stairs
    yield listing(stairs)


# Numbers.

LENGTHS = [
    2**31 - 1, 2**31, 2**32 - 1, 2**32, 2**32 + 5, 2**53 + 5, 2**63 - 1, 2**63,
    2**63 + 5, 2**64 - 1, 2**64, 2**64 + 1, 2**64 + 5, 2**65 + 5,
    10 * 2**64 + 5, 2**128 + 5, 10**18, 10**19, 10**20, 10**39, 10**40,
    10**40 - 1, 10**60,
]


def lengths():
    for n in LENGTHS:
        for tail in (b"", b":", b":abcde", b":abcdee", b"x", b"e", b"-", b"i"):
            text = b"%d%s" % (n, tail)
            yield text
            yield b"l" + text
            yield b"d" + text
            yield b"d1:a" + text
    for k in range(1, 40):
        yield b"%d:abcde" % (2**64 - k)
        yield b"l0:%d:abcdee" % (2**64 - k)
    for n in range(5):
        for size in range(5):
            for shape in (b"%d:%s", b"l%d:%se", b"d%d:%s0:e", b"d0:%d:%se"):
                yield shape % (n, b"eeee"[:size])
    for text in (b"00", b"00:", b"01:a", b"05:abcde", b"00005:abcde", b"0",
                 b"0x", b"0e", b"0:", b"0-", b"00000000000000000000000:",
                 b"1", b"10", b"1:", b"-0:", b"-1:a", b"+1:a", b" 1:a", b":a",
                 b"1 :a", b"1;a", b"1/a", b"/:a", b"1::", b"12:abcdefghijkl",
                 b"9" * 1000, b"9" * 1000 + b":", b"1" + b"0" * 5000 + b"x"):
        yield text
        yield listing(text)
        yield dictionary((b"a", text))
        yield b"d" + text + b"i1ee"


NUMBERS = sorted(
    {s * (2**k + d) for k in (31, 32, 63, 64, 65, 128) for d in (-1, 0, 1, 7)
     for s in (1, -1)}
    | {s * (10**k + d) for k in (17, 18, 19, 20, 39, 40) for d in (-1, 0)
       for s in (1, -1)}
    | {s * (9223372036854775800 + d) for d in range(-5, 15) for s in (1, -1)}
    | {0, 1, -1, 9, 10, -9, -10, 65535, 2**64 + 2**63, 10 * 2**64 + 7,
       922337203685477581, -922337203685477581, 9300000000000000000})


def integers():
    for n in NUMBERS:
        whole = integer(n)
        yield whole
        yield whole[:-1]
        yield whole[:-1] + b"x"
        yield whole[:-1] + b"-e"
        yield whole + b"e"
        yield listing(b"i1e", whole)
        yield dictionary((b"a", whole), (b"b", whole))
    for text in (b"i", b"ie", b"i-", b"i-e", b"i-0", b"i-0e", b"i-00e", b"i0",
                 b"i00e", b"i01e", b"i03e", b"i-01e", b"i--1e", b"i+1e",
                 b"i 1e", b"i1 e", b"i1-e", b"i1-2e", b"i1.e", b"i1:e", b"i:e",
                 b"i/e", b"i1/e", b"ixe", b"i0xe", b"i0-e", b"i-xe", b"I1e",
                 b"i1E", b"i" + b"0" * 40 + b"e", b"i" + b"7" * 40 + b"e",
                 b"i-" + b"7" * 40 + b"e", b"i" + b"1" * 5000 + b"e",
                 b"i-" + b"1" * 5000 + b"x"):
        yield text
        yield listing(text)
        yield listing(b"0:", text, b"i99999999999999999999e")
        yield dictionary((b"a", text))
        yield b"d" + text + b"0:e"


def range_order():
    """6 in many places, and 6 against faults before and after it."""
    for n in (2**63, -2**63 - 1, 2**64 + 7, 10**40):
        bad = integer(n)
        for kinds in ("l", "d", "ld", "dl", "lll", "ddd", "l" * 16, "d" * 16):
            yield nested(kinds, bad)
            yield nested(kinds, b"i1e" + bad)
        yield listing(b"x", bad)
        yield listing(bad, b"x")
        yield listing(bad, bad)
        yield b"l" + bad
        yield bad + bad
        yield b"d" + bad + b"0:e"
        yield dictionary((b"a", b"0:"), (b"a", bad))
        yield dictionary((b"a", bad), (b"a", b"0:"))
        yield dictionary((b"b", b"0:"), (b"a", bad))
        yield dictionary((b"b", bad), (b"a", b"0:"))


# Keys.

KEY_SETS = [
    [b"a", b"b", b"c", b"d"],
    [b"", b"a", b"aa", b"ab"],
    [b"\x00", b"\x00\x00", b"\x7f", b"\x80"],
    [b"\x00\x01", b"\x01", b"\xfe\xff", b"\xff"],
    [b"abcdefghij", b"b", b"B", b"9"],
]
VALUES = [b"i0e", b"0:", b"le", b"de"]


def key_orders(sets):
    """All orders of 4 keys, plain and with each key again at each place."""
    for keys in sets:
        for order in itertools.permutations(keys):
            rows = [list(order)]
            for i in range(4):
                for j in range(i + 1, 5):
                    rows.append(list(order[:j]) + [order[i]] + list(order[j:]))
            for row in rows:
                yield dictionary(*zip(row, itertools.cycle(VALUES)))


FAULTY = [b"", b"x", b"e", b"i", b"ie", b"i-0e", b"i99999999999999999999e",
          b"5:ab", b"05:abcde", b"l", b"lx", b"d", b"dx", b"d1:a0:1:a0:e",
          b"d1:b0:1:a0:e", b"l" * 17]


def key_faults():
    """Key faults against faults of values."""
    for bad in FAULTY:
        for pairs in (
            [(b"a", b"0:"), (b"a", bad)],
            [(b"a", bad), (b"a", b"0:")],
            [(b"b", b"0:"), (b"a", bad)],
            [(b"b", bad), (b"a", b"0:")],
            [(b"a", b"0:"), (b"b", bad), (b"a", b"0:")],
            [(b"a", b"0:"), (b"b", b"0:"), (b"a", bad)],
            [(b"b", b"0:"), (b"a", b"0:"), (b"b", bad)],
            [(b"", bad), (b"", bad)],
            [(b"a", b"0:"), (b"b", b"0:"), (b"c", bad)],
        ):
            yield dictionary(*pairs)
            yield listing(dictionary(*pairs), b"x")
    for tail in (b"", b"1", b"1:", b"1:a", b"1:ae", b"1:ax", b"1:ai", b"1:ai1",
                 b"01:a", b"1x", b"2:a", b"2:ab", b"0", b"0:", b"i1e", b"l"):
        yield b"d1:a0:" + tail
        yield b"d1:b0:" + tail
        yield b"d0:0:1:a0:" + tail
        yield b"ld1:a0:" + tail


BETWEEN = [
    b"i1e", b"0:", b"le", b"de", b"d1:a0:e", b"d1:b0:1:c0:e", b"ld1:a0:ee",
    b"d1:ad1:ad1:aleeee", b"li1ei2ei3ee", b"6:d1:a0:", b"9:1:a0:1:a0",
    string(b"1:a" * 100), string(bytes(range(256))), listing(*[b"de"] * 50),
    listing(*[b"d1:ai1ee"] * 20), nested("d" * 14, b"0:"),
]


def key_scopes():
    """Keys again after long values, at other levels and in siblings."""
    for value in BETWEEN:
        yield dictionary((b"a", value), (b"b", value), (b"c", value))
        yield dictionary((b"a", value), (b"a", value))
        yield dictionary((b"a", value), (b"b", value), (b"a", value))
        yield dictionary((b"b", value), (b"c", value), (b"b", value))
        yield dictionary((b"c", value), (b"b", value), (b"c", value))
        yield dictionary((b"b", value), (b"a", value))
        yield listing(dictionary((b"a", value)), dictionary((b"a", value)))
        yield dictionary((b"k", dictionary((b"k", value))), (b"l", value))
        yield dictionary((b"k", dictionary((b"l", value))), (b"l", value))
        yield dictionary((b"k", dictionary((b"l", value))), (b"k", value))
        yield dictionary((b"k", dictionary((b"z", b"0:"), (b"z", value))))
        yield dictionary((b"k", dictionary((b"z", value))), (b"m", b"de"),
                         (b"l", value))
    for one, two in itertools.product(
            (b"", b"a", b"aa", b"aaa", b"ab", b"b", b"\x00", b"a\x00",
             b"a\x00a", b"a\x00b", b"a\xff", b"\x7f", b"\x80", b"\xff",
             b"1:a", b"e", b"0:", b"x" * 20, b"x" * 19 + b"y"), repeat=2):
        yield dictionary((one, b"0:"), (two, b"0:"))


def many_keys(chance, count):
    """Many keys rising, falling and shuffled; plain and with one again."""
    rising = [b"%d" % n for n in range(100, 100 + count)]
    for order in (rising, rising[::-1], chance.shuffled(rising)):
        pairs = [(k, chance.pick(VALUES)) for k in order]
        yield dictionary(*pairs)
        for again in (0, count // 2, count - 1):
            yield dictionary(*pairs, (order[again], b"x"))
        yield dictionary(*pairs[:-5], pairs[7], *pairs[-5:])


# Keys that are text, and keys that are none.

LAST_CHARACTER = b"\xf4\x8f\xbf\xbf"
TEXT_KEY_SETS = [
    [b"\x01", b"\x7f", b"\xc2\x80", b"\xc2\x80\x01"],
    [b"\xdf\xbf", b"\xef\xbf\xbf", b"\xf0\x90\x80\x80", LAST_CHARACTER],
]


def text_key_pairs():
    """Pairs of legal keys: the same twice, rising and falling by bytes."""
    for one, two in itertools.product(
            (b"", b"\x01", b"a\x01", b"\x7f", b"\xc2\x80", b"\xc3\xa4",
             b"a\xcc\x88", b"a\xc3\xa4", b"\xef\xbb\xbf", b"\xef\xbb\xbfa",
             b"\xef\xbf\xbf", b"\xf0\x90\x80\x80", LAST_CHARACTER), repeat=2):
        yield dictionary((one, b"0:"), (two, b"0:"))


def text_keys():
    """Each text as a key at several places, and as a string that is none."""
    for text in KEY_TEXTS:
        entry = (text, b"0:")
        inner = dictionary(entry)
        yield inner
        yield b"d" + string(text)
        yield b"d" + string(text)[:-1]
        yield dictionary((b"a", b"0:"), entry)
        yield dictionary((b"b", b"0:"), (b"a" + text, b"0:"))
        yield dictionary((LAST_CHARACTER, b"0:"), entry)
        yield dictionary((b"k", inner))
        yield listing(inner)
        yield nested("l" * 15, inner)
        yield string(text)
        yield listing(string(text), string(text + b"d"))
        yield dictionary((b"a", string(text)))


def text_key_places():
    """Some texts in dictionaries of messages and handshakes, and deep."""
    for text in CHOSEN:
        entry, inner = (text, b"i0e"), dictionary((text, b"i0e"))
        name, id = (b"name", b"1:x"), (b"id", b"i3e")
        for order in itertools.permutations((name, id, entry)):
            yield listing(b"4:info", listing(dictionary(*order)))
        yield listing(b"6:status", listing(dictionary(id), inner), b"i7e")
        yield dictionary((b"version", b"i2e"), entry)
        yield dictionary(entry, (b"version", b"i2e"))
        yield dictionary((b"version", dictionary(
            (b"min", b"i1e"), entry, (b"max", b"i2e"))))
        yield listing(b"4:noop", inner, b"i1e")
        yield listing(string(text), inner)
        for kinds in ("d" * 15, "dl" * 7 + "d", "d" * 16, "l" * 16):
            yield nested(kinds, inner)
        yield nested("d" * 15, dictionary((text, b"le")))
        yield listing(dictionary(id), dictionary(entry), dictionary(entry))
        yield dictionary((b"a", string(text)), entry, (b"z", string(text)))


def text_key_order():
    """10 against the other faults, earlier and later ones."""
    for bad in (b"\xff", b"a\x00", b"\xe2\x82", b"\xed\xa0\x80b"):
        for order in itertools.permutations((b"a", b"b", bad)):
            for again in (*order, b""):
                yield dictionary(*((k, b"i0e") for k in (*order, again)))
                yield dictionary(*((k, b"de") for k in (again, *order)))
        yield dictionary((bad, b"0:"), (bad, b"0:"))
        yield dictionary((bad + b"a", b"0:"), (bad, b"0:"))
        inner = dictionary((bad, b"0:"))
        for faulty in FAULTY:
            yield dictionary((bad, faulty))
            yield dictionary((b"a", faulty), (bad, b"0:"))
            yield dictionary((b"b", b"0:"), (b"a" + bad, faulty))
            yield listing(inner, faulty)
            yield listing(faulty, inner)
            yield inner + faulty
        whole = dictionary((b"b", b"i1e"), (b"a" + bad, b"i2e"))
        for size in range(len(whole)):
            yield whole[:size]
            yield b"l" + whole[:size] + b"e"
        for size in (len(bad) + 1, len(bad) + 2**32, len(bad) + 2**64):
            yield b"d%d:%s" % (size, bad)
        yield b"d0%d:%s0:e" % (len(bad), bad)
        yield b"d-%d:%s0:e" % (len(bad), bad)
        yield b"d%d;%s0:e" % (len(bad), bad)


def text_key_words():
    """Bad bytes at every place of keys of all lengths, characters between
    runs of ASCII of all lengths and parted by them, and long keys."""
    for size in range(1, 41):
        text = run(size)
        for at in range(size):
            byte = (b"\x00", b"\xff", b"\x80", b"\xc3")[(size + at) % 4]
            bad = text[:at] + byte + text[at + 1:]
            yield dictionary((bad, b"0:"))
            if size < 18:
                yield b"d" + string(bad)
                yield dictionary((b"a", string(b"x" * at)), (bad, b"de"))
        yield dictionary((text, b"0:"))
        yield b"d" + string(text)
    for before, after in itertools.product(range(25), repeat=2):
        middle = MIDDLES[(before + 5 * after) % len(MIDDLES)]
        yield dictionary((run(before) + middle + run(after), b"0:"))
    for middle, before in itertools.product(MIDDLES, range(25)):
        yield b"d" + string(run(before) + middle)
        yield dictionary((run(before) + middle, b"i0e"), (b"z", b"0:"))
    for whole in (b"\xc3\xa4", b"\xe2\x82\xac", b"\xf0\x9f\x98\x80"):
        for cut, size in itertools.product(range(1, len(whole)), range(18)):
            yield dictionary((whole[:cut] + run(size) + whole[cut:], b"0:"))
    for size in (99, 100, 101, 1000):
        yield dictionary((run(size), b"0:"))
        for at in (0, size // 2, size - 4):
            for middle in (b"\x00", b"\xff", LAST_CHARACTER):
                end = at + len(middle)
                text = run(size)[:at] + middle + run(size)[end:]
                yield dictionary((text, b"0:"))
        yield dictionary((run(size - 1) + b"\xff", b"0:"))


def text_key_neighbours():
    """Sound keys about strings of bytes that no key has."""
    for size, byte in itertools.product(range(18), (b"\x00", b"\xff")):
        key = run(size)
        for value in (byte, byte * 2, byte * 7, byte * 8, byte * 9):
            yield dictionary((key, string(value)), (b"z", string(value)))
        yield dictionary((b"", string(byte * size)), (key + b"\xc3\xa4",
                                                    string(byte)))
        yield listing(string(byte * size), dictionary((key, b"0:")),
                      string(byte))
        yield listing(string(byte), dictionary((key, byte)))


def random_text_keys(chance, count):
    """Random dictionaries with characters of all lengths in their keys."""
    for _ in range(count):
        keys = [random_key(chance) for _ in range(1 + chance.below(4))]
        values = [chance.pick((*VALUES, b"1:\xff", b"d2:\xc3\xa40:e"))
                  for _ in keys]
        kinds = "".join(chance.pick("ld") for _ in range(chance.below(3)))
        yield nested(kinds, dictionary(*zip(keys, values)))
        yield nested(kinds, dictionary(*zip(sorted(set(keys)), values)))
        at = chance.below(len(keys))
        keys[at] = damaged(chance, keys[at])
        payload = nested(kinds, dictionary(*zip(keys, values)))
        yield payload
        yield mutated(chance, payload)


def trailing():
    for value in (b"i0e", b"i-5e", b"i9223372036854775807e", b"0:", b"1:a",
                  b"3:\x00\xff:", b"le", b"li1ee", b"de", b"d1:ai1ee",
                  b"d1:bi1e1:ai1ee", b"llldeeee", b"l" * 16 + b"e" * 16):
        for tail in (b"\x00", b"e", b"i", b"0", b"0:", b"le", b"d", b"\xff",
                     b" ", b"\n", b"i1e", b":", b"-", b"x", b"l" * 17,
                     b"d1:a0:1:a0:e", b"i99999999999999999999e"):
            yield value + tail


# Random payloads.

def random_payloads(chance, count):
    made = 0
    while made < count:
        payload = random_value(chance, 9)
        if 6 <= len(payload) <= 100 or chance.below(60) == 0:
            made += 1
            yield payload
            yield mutated(chance, payload)
            yield mutated(chance, mutated(chance, payload) or b"e")


def large(chance):
    numbers = [integer(chance.below(2**40) - 2**39) for _ in range(900)]
    yield listing(*numbers)
    yield listing(*numbers, b"i9223372036854775808e")
    yield b"l" + b"".join(numbers)
    text = bytes(chance.below(256) for _ in range(40000))
    yield string(text)
    yield listing(b"4:noop", string(text[:8192]), b"i1e")
    yield b"10001:" + text[:10000]
    yield b"9999:" + text[:10000]
    keys = [b"%d" % n for n in range(1000, 3000)]
    yield dictionary(*((k, b"0:") for k in reversed(keys)))
    yield dictionary(*((k, b"0:") for k in keys))
    yield dictionary(*((k, b"0:") for k in reversed(keys)), (keys[-1], b"0:"))
    yield dictionary(*((k, b"0:") for k in keys), (keys[0], b"0:"))
    torrents = [dictionary((b"id", integer(n)), (b"name", string(b"t%d" % n)))
                for n in range(1, 400)]
    yield listing(b"4:info", listing(*torrents))


def profiles(payloads):
    """Both profiles where a dictionary may be met, else one by turns."""
    for number, payload in enumerate(payloads):
        if b"d" in payload:
            yield b"l", payload
            yield b"s", payload
        else:
            yield b"ls"[number % 2:][:1], payload


def by_turns(payloads):
    """One profile for each payload."""
    for number, payload in enumerate(payloads):
        yield b"ls"[number % 2:][:1], payload


def all_cases():
    chance = Chance(0x9E3779B97F4A7C15)
    groups = [
        named(), single_faults(chance), levels(chance), branches(), lengths(),
        integers(), range_order(), key_orders(KEY_SETS), key_faults(),
        key_scopes(), many_keys(chance, 200), many_keys(chance, 20),
        trailing(), random_payloads(chance, 2000), large(chance),
        key_orders(TEXT_KEY_SETS), text_key_pairs(), text_keys(),
        text_key_places(), text_key_order(), text_key_neighbours(),
        random_text_keys(chance, 150),
    ]
    return dict.fromkeys(itertools.chain(
        profiles(itertools.chain(*groups)), by_turns(text_key_words())))


def pair_cases(counts):
    """Both payloads of each pair, one after the other. They come out as equal
    bytes exactly when they mean the same value."""
    for kind, one, two in value_pairs():
        outs = [sort(payload, len(payload))[2] for payload in (one, two)]
        same = same_value(one, two)
        assert (outs[0] == outs[1]) == same, (one, two)
        row = counts.setdefault(kind, [0, 0])
        row[same] += 1
        yield case(one, len(one))
        yield case(two, len(two))


def hold_sorted(payload, out):
    """What a sorter that accepts a payload writes, by the rules."""
    strict = walk(payload, True) == (0, len(payload))
    assert len(out) == len(payload) and (out == payload) == strict
    assert walk(out, True) == (0, len(out)) and same_value(payload, out)
    assert sort(out, len(out)) == (0, 0, out)


def line_of(operation, body):
    if operation == b"o":
        text = line(body)
        if text.startswith("0 "):
            hold_sorted(body[4:], bytes.fromhex(text.split()[3]))
        return text
    return "%d %d" % walk(body, operation in b"sS")


def with_flat(cases):
    """The cases, then each walk among them by the walker with one loop."""
    cases = list(cases)
    yield from cases
    for operation, payload in dict.fromkeys(cases):
        if operation in b"ls":
            yield operation.upper(), payload


def made_cases(pairs):
    """All cases but the cut one. New ones stand after all older ones."""
    walked = all_cases()
    sorting = dict.fromkeys(sort_cases([payload for _, payload in walked]))
    older = [*walked, *(each for each in sorting if each not in walked),
             *pair_cases(pairs), *largest_cases()]
    levels = dict.fromkeys(itertools.product(level_payloads(), (b"l", b"s")))
    known = set(older)
    return with_flat(itertools.chain(older, (
        (operation, payload) for payload, operation in levels
        if (operation, payload) not in known)))


TITLES = {"l": "loose", "s": "strict", "L": "flat loose", "S": "flat strict",
          "o": "sorted"}


def print_counts(counts, pairs):
    total = sum(n for row in counts.values() for n in row.values())
    print(total, "cases and a cut one")
    for code, row in [*sorted(counts.items()), ("all", {
            each: sum(row[each] for row in counts.values())
            for each in TITLES})]:
        print("code %3s: %s" % (code, ", ".join(
            "%s %5d" % (title, row[each]) for each, title in TITLES.items())))
    print("pairs: same %d, other %d" % (
        sum(row[1] for row in pairs.values()),
        sum(row[0] for row in pairs.values())))
    for kind, row in sorted(pairs.items()):
        print("%-16s same %4d, other %4d" % (kind, row[1], row[0]))


def main(folder, step):
    cases, lines, counts, pairs = bytearray(), bytearray(), {}, {}
    for operation, body in itertools.islice(made_cases(pairs), 0, None, step):
        assert len(body) <= MAX_BODY
        text = line_of(operation, body)
        cases += operation + struct.pack("<I", len(body)) + body
        lines += text.encode() + b"\n"
        row = counts.setdefault(int(text.split()[0]), dict.fromkeys(TITLES, 0))
        row[operation.decode()] += 1
    cases += b"l" + struct.pack("<I", 5) + b"i1"
    lines += b"case fault\n"
    assert len(cases) < SIZE_LIMIT
    (folder / "stdin").write_bytes(cases)
    (folder / "stdout").write_bytes(lines)
    print_counts(counts, pairs)
    print("bytes:", len(cases), len(lines))


if __name__ == "__main__":
    if not 2 <= len(sys.argv) <= 3:
        sys.exit("usage: python3 -B -m generate.payload_cases FOLDER [N]")
    main(pathlib.Path(sys.argv[1]), int((*sys.argv, 1)[2]))
