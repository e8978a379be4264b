"""Makes the stored cases of frame_cases, and their lines.

A case is one byte of operation, a length in 4 bytes, little-endian, and so
many bytes of body; its line is what oracle.frame.line gives. The last case
is cut short. Operations: r read, w write, s write a handshake, a agreed
version, R read in the strict profile.

In tools/, python3 -B -m generate.frame_cases FOLDER writes FOLDER/stdin and
FOLDER/stdout: the same on every run, since all choices come from a fixed seed.
"""

import itertools
import pathlib
import struct
import sys

from generate.chance import Chance
from generate.encoded import (
    REPLACEMENTS, dictionary, integer, listing, mutated, nested, random_text,
    random_value, string)
from generate.key_texts import (
    CHOSEN, KEY_TEXTS, NO_KEYS, damaged, random_key, run)
from generate.payload_cases import (
    BETWEEN, EXAMPLES, FAULTY, FRAMES, SCOPE, SOUND)
from oracle.canonical import sort
from oracle.frame import FAULT, MAX_PAYLOAD, TABLE, line, read, write

MAX_BODY = 131072
SIZE_LIMIT = 3000000
LINES_LIMIT = 1040000  # a program that is tried may print 1 MiB
KEYS = [key for key, _ in TABLE]
LARGEST = 2147483647


def frame(payload):
    return b"%08X%s" % (len(payload), payload)


def message(key, *values):
    return frame(listing(string(key), *values))


# Values of messages.

INTEGERS = [integer(n) for n in (
    -2**63, -2**32, -LARGEST - 1, -65536, -2, -1, 0, 1, 2, 10, 255, 256, 257,
    65534, 65535, 65536, 65537, LARGEST - 1, LARGEST, LARGEST + 1, 2**32 - 1,
    2**32, 2**32 + 1, 2**63 - 1)]
TEXTS = [string(text) for text in (
    b"", b"0", b"1", b"a", b"i1e", b"le", b"\x00\xff", b"/foo", b"x" * 300)]
ID_LISTS = [listing(*map(integer, ids)) for ids in (
    [], [1], [1, 1], [3, 8, 6], [LARGEST], range(1, 40), [0], [-1], [1, 0],
    [0, 1], [LARGEST + 1], [1, LARGEST + 1, 1], [2**32 + 1], [2**63 - 1],
    [-2**63])]
MIXED_LISTS = [
    b"l0:e", b"l1:ae", b"l1:a1:ae", b"l5:state9:completede", b"l1:ai1ee",
    b"li1e1:ae", b"l1:alee", b"l1:adee", b"li1elee", b"li1edee", b"llee",
    b"lli1eee", b"ll1:aee", b"l1:1e", b"ldei1ee",
]
TORRENTS = [
    b"de", b"d2:idi1ee", b"d2:idi2147483647ee", b"d2:idi0ee", b"d2:idi-1ee",
    b"d2:idi2147483648ee", b"d2:idi4294967297ee", b"d2:id1:1e", b"d2:id0:e",
    b"d2:idlee", b"d2:idli1eee", b"d2:iddee", b"d2:idd2:idi1eee",
    b"d2:idi9223372036854775807ee", b"d1:ii1ee", b"d3:iddi1ee", b"d2:IDi1ee",
    b"d2:dii1ee", b"d0:i1ee", b"d3:id\x00i1ee", b"d1:a2:ide",
    b"d4:name3:foo2:idi3ee", b"d2:idi3e4:name3:fooe",
    b"d4:name3:foo2:idi3e4:hash1:xe", b"d4:name3:foo2:idi0e4:hash1:xe",
    b"d1:xd2:idi5eee", b"d1:xd2:idi5ee2:idi6ee", b"d1:xd2:idi5ee2:idi0ee",
    b"d1:xd2:idi0ee2:idi6ee", b"d2:idi6e1:xd2:idi0eee", b"d1:xl2:idi5eee",
    b"d1:x7:2:idi5ee", b"d1:x8:d2:idi5e2:idi6ee", b"d7:2:idi5ei1ee",
    b"d1:x7:2:idi5e2:id1:ae", b"d2:idi1e2:idi1ee", b"d1:a0:1:a0:2:idi1ee",
    b"d2:idi01ee", b"d2:idi9223372036854775808ee", b"d2:ide",
]
TORRENT_LISTS = (
    [listing(torrent) for torrent in TORRENTS]
    + [listing(b"d2:idi1ee", torrent) for torrent in TORRENTS[::3]]
    + [listing(torrent, b"d2:idi1ee") for torrent in TORRENTS[1::3]]
    + [b"ld2:idi1ee1:ae", b"l1:ad2:idi1eee", b"ld2:idi1eei1ee",
       b"ld2:idi1eelee", b"ld2:idi1ee2:id", b"lld2:idi1eeee"])
OTHERS = [
    b"d1:ai1ee", b"d2:idi1ee", b"d3:mini1e3:maxi2ee", nested("l" * 14, b"le"),
    nested("l" * 15, b"le"), nested("d" * 15, b"i1e"), nested("d" * 15, b"de"),
    nested("ldl", b"i1e"), b"ldedee",
]
VALUES = INTEGERS + TEXTS + ID_LISTS + MIXED_LISTS + TORRENT_LISTS + OTHERS

# What may stand after a message's value: nothing, a tag, or neither.
ENDINGS = [
    (), (b"i1e",), (b"i2147483647e",), (b"i0e",), (b"i-1e",),
    (b"i2147483648e",), (b"i4294967297e",), (b"i9223372036854775807e",),
    (b"i-9223372036854775808e",), (b"0:",), (b"1:1",), (b"le",), (b"li1ee",),
    (b"de",), (b"i1e", b"i1e"), (b"i1e", b"0:"), (b"i0e", b"i1e"),
    (b"0:", b"le", b"de"), (b"i1", ), (b"i01e",), (b"i9223372036854775808e",),
]

# A right value for each format, and a wrong one where there is one.
RIGHT = {"boolean": b"i1e", "ignored": b"0:", "string": b"3:abc",
         "integer": b"i-5e", "port": b"i51413e", "ID list": b"li8ei2ee",
         "string list": b"l5:statee", "torrent list": b"ld2:idi3eee"}
WRONG = {"boolean": b"i2e", "ignored": b"de", "string": b"i1e",
         "integer": b"0:", "port": b"i65536e", "ID list": b"li8ei0ee",
         "string list": b"li1ee", "torrent list": b"ld2:idi3eedee"}


def near_misses():
    """Keys that are not listed, most of them nearly so."""
    for key in KEYS:
        yield from (key[:-1], key[1:], key + b"x", key + b"\x00", key + b"s",
                    key.upper(), key.title(), b"x" + key[1:],
                    key[:-1] + bytes([key[-1] ^ 0x80]), key + key)
    yield from (b"", b"\x00", b"\xff\xfe", b"get-info", b"get-info-all",
                b"get-status", b"get-pex", b"get-port", b"lookup", b"quit",
                b"remove-all", b"start-all", b"stop-all", b"supported",
                b"addfiles", b"version", b"id", b"getXuplimit", b"x" * 300,
                b"get_uplimit", b"get-uplimit-all", b"start ", b" start")


# Cases of the reader.

def scope_frames():
    yield from (b"", b"00000000", b"7FFFFFF8", b"7FFFFFF9", b"00008000",
                b"00008001", b"0000001dd7:versiond3:mini1e3:maxi2eee",
                b"00000010l5:startli8eei15ee", b"00000012l5:startli8eei15ee",
                b"00000011l9:downlimiti-1ee0000000Fl7:uplimiti-1ee"
                b"0000000Dl4:stopli3eee0000000El5:startli8eee")
    for payload in SCOPE:
        yield frame(payload)


def sample_frames():
    """The IPC text's frames as they stand, and with lengths put right."""
    for length, payload, corrected in FRAMES:
        for text in (payload, corrected or payload):
            yield b"%08X%s" % (length, text)
            yield frame(text)
    yield b"00000015l13:get-downlimiti0ee00000013l13:get-uplimiti0ee"
    yield b"0000000Fl9:uplimiti20ee00000012l9:downlimiti100ee"
    yield frame(b"l13:get-downlimiti0ee") + frame(b"l11:get-uplimiti0ee")
    yield frame(b"l7:uplimiti20ee") + frame(b"l9:downlimiti100ee")
    for example in EXAMPLES:
        yield frame(listing(example))
        yield frame(listing(example, b"i15e"))


def keys_and_values():
    for key in KEYS + [b"", b"get-info"]:
        for value in VALUES:
            yield message(key, value)


def keys_and_endings():
    for key, form in TABLE + [(b"get-info", "ignored")]:
        for ending in ENDINGS:
            yield message(key, RIGHT[form], *ending)
            yield message(key, WRONG[form], *ending)


def odd_messages():
    """Unlisted keys, other counts of values, a first value that is no key."""
    for key in near_misses():
        yield message(key, b"i70000e")
        yield message(key, b"2:ab", b"i9e")
    for key in KEYS + [b"", b"x"]:
        yield message(key)
        yield message(key, b"i1e")[:-1] + b"x"
        yield message(key, b"i1e", b"i1e", b"i1e")
        yield message(key, b"i1e", b"i1e", b"i1e", b"i1e")
        yield frame(string(key))
        yield frame(dictionary((key, b"i1e")))
    yield frame(b"le")
    for first in (b"i1e", b"le", b"de", b"l5:starte", b"d5:startlee", b"i16e"):
        yield frame(listing(first))
        for value in (b"0:", b"li8ee", b"5:start"):
            yield frame(listing(first, value))
            yield frame(listing(first, value, b"i15e"))
            yield frame(listing(first, value, b"i0e"))
    for payload in SOUND:
        yield frame(payload)


# Handshakes.

VERSIONS = [integer(n) for n in (
    -2**63, -1, 0, 1, 2, 3, LARGEST - 1, LARGEST, LARGEST + 1, 2**32 + 1,
    2**63 - 1)]
NO_VERSIONS = [b"0:", b"1:1", b"le", b"li1ee", b"de", b"d3:mini1ee"]


def ranged(least, most, *noise):
    return dictionary((b"min", least), (b"max", most), *noise)


def hello(version, *noise):
    return frame(dictionary((b"version", version), *noise))


def handshakes():
    for version in VERSIONS + NO_VERSIONS:
        yield hello(version)
        yield hello(version, (b"label", b"3:abc"))
        yield hello(dictionary((b"min", version)))
        yield hello(dictionary((b"max", version)))
        yield hello(ranged(b"i1e", version, (b"a", version)))
    for least, most in itertools.product(VERSIONS, repeat=2):
        yield hello(ranged(least, most))
        yield hello(dictionary((b"max", most), (b"min", least)))
    for bad in NO_VERSIONS:
        yield hello(ranged(bad, b"i2e"))
        yield hello(ranged(b"i1e", bad))


def handshake_orders():
    """Keys in any order, other keys, and keys twice."""
    inner = [(b"min", b"i1e"), (b"max", b"i2e"), (b"label", b"3:foo"),
             (b"x", b"d3:mini0e3:maxi0ee")]
    outer = [(b"version", ranged(b"i1e", b"i4e")), (b"quit", b"0:"),
             (b"ver", b"d7:versioni9ee"), (b"port", b"i1e")]
    for order in itertools.permutations(inner):
        yield hello(dictionary(*order))
        yield hello(dictionary(*order, order[0]))
        yield hello(dictionary(*order[1:]))
    for order in itertools.permutations(outer):
        yield frame(dictionary(*order))
        yield frame(dictionary(*order, order[0]))
        yield frame(dictionary(*order[1:]))
    for key in (b"versio", b"version\x00", b"versions", b"Version", b"VERSION",
                b"", b"ersion", b"min", b"max"):
        yield frame(dictionary((key, b"i2e")))
        yield frame(dictionary((key, b"i0e"), (b"version", b"i2e")))
    for key in (b"mi", b"minn", b"Min", b"min\x00", b"in", b"", b"max "):
        yield hello(dictionary((key, b"i1e"), (b"max", b"i2e")))
        yield hello(dictionary((b"min", b"i1e"), (key, b"i2e")))
        yield hello(ranged(b"i1e", b"i2e", (key, b"i0e")))
    yield hello(ranged(b"i1e", b"i2e", (b"min", b"i1e")))
    yield hello(ranged(b"i1e", b"i2e", (b"max", b"i2e")))
    yield hello(b"i2e", (b"version", b"i2e"))


def handshake_noise():
    for value in BETWEEN + FAULTY:
        noise = (b"noise", value)
        yield hello(b"i2e", noise)
        yield frame(dictionary(noise, (b"version", b"i2e")))
        yield hello(ranged(b"i1e", b"i2e", noise))
        yield hello(dictionary(noise, (b"max", b"i2e"), (b"min", b"i1e")))
        yield frame(dictionary(noise))
        yield hello(value)
        yield hello(ranged(value, value))
    for text in (b"7:versioni2e", b"d7:versioni2ee", b"3:mini1e3:maxi2e"):
        yield frame(dictionary((b"a", string(text))))
        yield frame(dictionary((text, b"i1e")))
        yield hello(dictionary((b"a", string(text))))
        yield hello(ranged(b"i1e", b"i3e", (b"a", string(text))))
    yield frame(listing(b"7:version", ranged(b"i1e", b"i2e")))
    yield frame(listing(dictionary((b"version", b"i2e"))))
    yield frame(dictionary((b"a", dictionary((b"version", b"i2e")))))
    yield hello(dictionary((b"a", ranged(b"i1e", b"i2e"))))


# Faults of payloads and headers.

def payload_faults():
    """Faults 5 to 9 at several places of messages and handshakes."""
    deep = [b"l" * 16, nested("l" * 15, b""), nested("l" * 16, b""),
            nested("d" * 16, b"i1e"), nested("dl" * 8, b"i1e")]
    for bad in FAULTY + deep:
        for key in (b"start", b"noop", b"port", b"info", b"get-info"):
            yield message(key, bad)
            yield message(key, b"i1e", bad)
            yield message(key, listing(b"i1e", bad))
            yield message(key, listing(dictionary((b"id", bad))))
            yield message(key, b"i1e", b"i1e", bad)
            yield message(key, b"de", b"i0e") + bad
            yield frame(listing(string(key), b"i1e") + bad)
        yield frame(listing(bad, b"i1e"))
        yield frame(bad)
        yield frame(b"d" + bad + b"i1ee")
    for tail in (b"e", b"i1e", b"0", b"\x00", b" ", b"\n", b"l" * 17):
        for payload in (b"l4:noop0:e", b"l4:porti65536ee", b"d7:versioni1ee",
                        b"de", b"le", b"i1e", b"0:", b"li1e0:e"):
            yield frame(payload + tail)
            yield frame(payload) + tail


def level_frames():
    for depth in (14, 15, 16, 17, 18):
        for kinds in ("l" * depth, "d" * depth, ("ld" * depth)[:depth]):
            for core in (b"", b"i1e", b"le"):
                value = nested(kinds, core)
                yield frame(value)
                yield message(b"noop", value)
                yield message(b"x", value, b"i7e")
                yield message(b"info", listing(dictionary(
                    (b"a", value), (b"id", b"i4e"))))
                yield hello(b"i2e", (b"a", value))
                yield hello(ranged(b"i1e", b"i2e", (b"a", value)))


# Keys that are text, and keys that are none.

ID = (b"id", b"i3e")


def text_key_frames():
    """Each text as a key, and as strings that are no keys of dictionaries."""
    for text in KEY_TEXTS:
        entry = (text, b"0:")
        yield hello(b"i2e", entry)
        yield message(b"info", listing(dictionary(entry, ID)))
        yield message(b"status", listing(dictionary(ID, entry)), b"i9e")
        yield message(b"noop", dictionary(entry))
        yield message(text, string(text))
        yield message(b"failed", string(text), b"i9e")
        yield message(b"get-status-all", listing(string(text)))


def text_key_handshakes():
    for text in CHOSEN:
        entry, inner = (text, b"i0e"), dictionary((text, b"i0e"))
        least, most = (b"min", b"i1e"), (b"max", b"i2e")
        yield frame(inner)
        yield frame(dictionary(entry, (b"version", b"i2e")))
        yield hello(b"i0e", entry)
        yield hello(b"i2e", (b"x", inner))
        yield hello(b"i2e", entry, entry)
        yield hello(b"i2e", (b"version" + text, b"i0e"))
        for order in itertools.permutations((least, most, entry)):
            yield hello(dictionary(*order))
        yield hello(ranged(b"i1e", b"i2e", (b"x", listing(inner))))
        yield hello(ranged(b"i1e", b"i2e", (b"min" + text, b"i0e")))
        yield hello(ranged(inner, b"i2e"))
        yield hello(inner)


def text_key_torrents():
    for text in CHOSEN:
        entry, inner = (text, b"i0e"), dictionary((text, b"i0e"))
        name, good = (b"name", b"1:x"), dictionary(ID)
        for order in itertools.permutations((name, ID, entry)):
            yield message(b"status", listing(dictionary(*order)))
        yield message(b"info", listing(dictionary(ID, (b"x", inner))))
        yield message(b"info", listing(dictionary((b"x", listing(inner)), ID)))
        yield message(b"info", listing(dictionary(ID, (b"id" + text, b"0:"))))
        yield message(b"info", listing(dictionary((b"id", inner))))
        yield message(b"info", listing(good, good, dictionary(ID, entry)))
        yield message(b"info", listing(dictionary(entry, ID, name, entry)))
        yield message(b"info", listing(dictionary(entry, (b"id", b"i0e"))))
        for off in (b"i1e", b"0:", b"le", b"de", b"d2:idi0ee"):
            yield message(b"info", listing(off, inner), b"i5e")
        deep = nested("l" * 12, inner)
        yield message(b"info", listing(dictionary((b"a", deep), ID)))


def text_key_values():
    """Values that are ignored, unlisted or off their format, and no values."""
    for text in CHOSEN:
        inner = dictionary((text, b"i0e"))
        for key, _ in TABLE + [(b"x", "any")]:
            yield message(key, inner, b"i7e")
        for key in (b"succeeded", b"start", b"get-status-all", b"x", b"\xff"):
            yield message(key, listing(inner))
            yield message(key, listing(b"i0e", b"0:", inner))
        yield message(b"port", b"i1e", inner)
        yield message(b"noop", b"0:", b"i1e", inner)
        yield message(b"noop", inner) + inner
        yield frame(listing(inner))
        yield frame(listing(inner, b"0:", b"i1e"))
        for levels in (13, 14, 15):
            yield message(b"x", nested("l" * levels, inner))
        yield message(b"noop", nested("d" * 14, inner))


def text_key_words():
    """Bad bytes at every place of keys of several lengths, and sound keys
    about strings of such bytes."""
    for size in range(1, 18):
        for at in range(size):
            byte = (b"\x00", b"\xff", b"\x80", b"\xc3")[(size + at) % 4]
            bad = (run(size)[:at] + byte + run(size)[at + 1:], b"0:")
            yield message(b"info", listing(dictionary(bad, ID)))
            yield message(b"info", listing(dictionary(ID, bad)))
    for size, byte in itertools.product(range(18), (b"\x00", b"\xff")):
        for value in (byte, byte * 8):
            pairs = (run(size), string(value)), ID, (b"z", string(value))
            yield message(b"info", listing(dictionary(*pairs)))
            yield hello(b"i2e", *pairs)


def text_key_cuts():
    """Payloads that end in or after a key, whether or not bytes follow."""
    for text in NO_KEYS + [b"\xc3\xa4", b"\xf0\x9f\x98\x80"]:
        for whole in (hello(b"i2e", (text, b"0:")),
                      message(b"info", listing(dictionary(ID, (text, b"0:")))),
                      message(b"noop", dictionary((text, b"0:")))):
            key = whole.index(string(text), 8)
            for end in range(key, key + len(string(text)) + 1):
                yield frame(whole[8:end])
                yield frame(whole[8:end])[:8] + whole[8:]


BAD_DIGITS = [bytes([b]) for b in b"/:@G`gxX -+_\x00\xb0\xff"]
SMALL = [
    b"0000000Al4:noop0:e", b"00000012l5:startli8eei15ee",
    b"0000000Fl4:porti65536ee", b"0000000Ed7:versioni2ee", b"00000003i7e",
    b"0000001dd7:versiond3:mini1e3:maxi2eee", b"00000011l6:failed5:abcdee",
    b"00000016l4:infold2:idi3eeei2ee",
]


def header_faults():
    whole = b"0000000Al4:noop0:e"
    for place, byte in itertools.product(range(8), BAD_DIGITS):
        bad = whole[:place] + byte + whole[place + 1:]
        yield bad
        yield bad[:place + 1]
        yield b"FFFFFFFF"[:place] + byte + b"FFFFFFFF"[place + 1:]
    for one, two in itertools.combinations(range(8), 2):
        bad = bytearray(b"0000000A")
        bad[one], bad[two] = ord("x"), ord("y")
        yield bytes(bad)
        yield bytes(bad[:two])
    for header in (b"0000000a", b"0000000A", b"FFFFFFFF", b"7fffFFF9",
                   b"00008001", b"        ", b"\x00" * 8, b"0x00000A"):
        for size in range(9):
            yield header[:size]


def header_lengths():
    for n in (0, 1, 2, 9, 10, 11, 26, 0xFF, 0x7FFF, 0x8000, 0x8001, 0xFFFF,
              0x10000, 0x1000A, 0xFFFFFF, 0x100000A, 0x7FFFFFF7, 0x7FFFFFF8,
              0x7FFFFFF9, 0x7FFFFFFF, 0x80000000, 0x8000000A, 0xFFFFFFFE,
              0xFFFFFFFF):
        for tail in (b"", b"l4:noop0:e", b"l4:noop0:eXX", b"e"):
            yield b"%08X%s" % (n, tail)
            yield b"%08x%s" % (n, tail)
    for size in (0xABC, 0xBAD, 0xDEF):
        body = listing(b"3:abc", string(b"x" * (size - 12)))
        upper, lower = b"%08X" % size, b"%08x" % size
        for header in (upper, lower, upper[:6] + lower[6:],
                       lower[:7] + upper[7:]):
            yield header + body
            yield header + body[:-1]


def cut_frames():
    for whole in SMALL:
        for size in range(len(whole) + 1):
            yield whole[:size]
            yield frame(whole[8:][:size])
        for tail in (b"0", b"x", b"\x00", b"0000000", b"00000000", whole):
            yield whole + tail


# Longest payloads.

def id_list(size):
    """An ID list of so many bytes."""
    left, ids = size - 2, []
    while left > 12:
        step = 12 if left >= 15 else 3
        ids.append(integer(LARGEST if step == 12 else 1))
        left -= step
    ids.append(integer(10 ** (left - 3)))
    return listing(*ids)


def info_list(size):
    """A torrent list of so many bytes."""
    torrents, left = [], size - 2
    while left > 1000:
        torrents.append(dictionary((b"name", string(b"n" * 25)),
                                   (b"id", integer(len(torrents) + 1))))
        left -= len(torrents[-1])
    last = dictionary((b"name", string(b"n" * (left - 19))), (b"id", b"i7e"))
    return listing(*torrents, last)


def filled(key, maker, size, tag=b""):
    """A message with a payload of so many bytes; maker makes its value."""
    around = len(listing(string(key), tag))
    return listing(string(key), maker(size - around), tag)


def text_value(size):
    return string(b"t" * (size - len(str(size)) - 1))


def longest(chance):
    text = filled(b"directory", text_value, MAX_PAYLOAD, b"i2147483647e")
    ids = filled(b"remove", id_list, MAX_PAYLOAD)
    info = filled(b"info", info_list, MAX_PAYLOAD, b"i5e")
    noise = dictionary((b"version", b"i2e"),
                       (b"a", text_value(MAX_PAYLOAD - 17)))
    for payload in (text, ids, info, noise):
        assert len(payload) == MAX_PAYLOAD
        assert read(frame(payload)).code == 0
        yield frame(payload)
    yield frame(text)[:-1]
    yield frame(ids) + b"0000000Al4:noop0:e"
    yield frame(filled(b"start", id_list, MAX_PAYLOAD + 1))
    yield frame(filled(b"start", id_list, MAX_PAYLOAD - 1))
    yield frame(b"i2147483648e".join(ids.rsplit(b"i2147483647e", 1)))
    yield frame(ids[:-2] + b"x" + ids[-1:])
    yield frame(ids[:-1] + b"l")
    yield frame(info[:-8] + b"0" + info[-7:])
    yield frame(text[:-1] + bytes([chance.below(256)]))
    yield frame(filled(b"unlisted", text_value, MAX_PAYLOAD))
    yield b"00008000" + text[:-1] + b"\x00" * 40
    yield frame(b"32762:" + b"x" * 32762)
    yield frame(b"32763:" + b"x" * 32762)
    yield frame(b"i" + b"9" * 32766 + b"e")


# Random frames.

POOL = INTEGERS + TEXTS[:-1] + ID_LISTS[:5] + MIXED_LISTS + TORRENT_LISTS[:30]


def random_message(chance):
    key, form = chance.pick(TABLE)
    if chance.below(6) == 0:
        key = random_text(chance, 4)
    value = chance.pick([RIGHT[form], RIGHT[form], WRONG[form],
                         chance.pick(POOL), random_value(chance, 6)])
    tag = chance.pick([(), (), (integer(1 + chance.below(LARGEST)),),
                       chance.pick(ENDINGS[:16])])
    return listing(string(key), value, *tag)


def random_handshake(chance):
    least = integer(1 + chance.below(5))
    most = integer(5 + chance.below(10 ** chance.below(12)))
    inner = [(b"min", least), (b"max", most)]
    inner.append((b"label", random_value(chance, 4)))
    version = dictionary(*chance.shuffled(inner)) if chance.below(4) else most
    outer = [(b"version", version), (b"a" + random_text(chance, 3),
                                     random_value(chance, 4))]
    return dictionary(*chance.shuffled(outer))


def random_frames(chance, count):
    for number in range(count):
        payload = (random_handshake if number % 4 == 0
                   else random_message)(chance)
        yield frame(payload)
        yield frame(mutated(chance, payload))
        yield mutated(chance, frame(payload))
        if number % 3 == 0:
            yield frame(payload) + random_text(chance, 9)
            yield mutated(chance, mutated(chance, frame(payload)) or b"0")


def random_text_frames(chance, count):
    """Torrents and handshakes with characters of all lengths in keys."""
    for number in range(count):
        keys = [random_key(chance) for _ in range(1 + chance.below(3))]
        for made in (keys, [damaged(chance, keys[0]), *keys[1:]]):
            entries = chance.shuffled(
                [ID, *((key, chance.pick(POOL[:40])) for key in made)])
            payload = listing(b"4:info", listing(dictionary(*entries)))
            if number % 3 == 0:
                payload = dictionary((b"version", b"i2e"), *entries)
            yield frame(payload)
            yield frame(mutated(chance, payload))


def changed_bytes(chance):
    """Each byte of small frames changed, lost or doubled."""
    for whole in SMALL[:5]:
        for at in range(len(whole)):
            for byte in REPLACEMENTS[::2] + [chance.pick(REPLACEMENTS)]:
                yield whole[:at] + byte + whole[at + 1:]
            yield whole[:at] + whole[at + 1:]
            yield whole[:at] + whole[at:at + 1] + whole[at:]


def read_cases():
    chance = Chance(0xD1B54A32D192ED03)
    groups = [
        scope_frames(), sample_frames(), keys_and_values(), keys_and_endings(),
        odd_messages(), handshakes(), handshake_orders(), handshake_noise(),
        payload_faults(), level_frames(), header_faults(), header_lengths(),
        cut_frames(), longest(chance), random_frames(chance, 700),
        changed_bytes(chance),
        text_key_frames(), text_key_handshakes(), text_key_torrents(),
        text_key_values(), text_key_words(), text_key_cuts(),
        random_text_frames(chance, 120),
    ]
    for body in dict.fromkeys(itertools.chain(*groups)):
        yield b"r", body


# Cases of the writer.

NUMBERS = (-2**63, -2**32, -2**31 - 1, -65536, -1, 0, 1, 2, 10, 255, 256, 257,
           65534, 65535, 65536, 65537, LARGEST, LARGEST + 1, 2**32, 2**32 + 1,
           10**18, 2**63 - 2, 2**63 - 1)
HANDED = [
    b"", b"a", b"abc", b"0:", b"3:abc", b"\x00", b"\xff" * 9, b"x" * 10,
    b"x" * 99, b"x" * 100, b"x" * 999, b"i1e", b"d2:idi1ee",
    b"l", b"le", b"li1ee", b"li1ei1ee", b"li3ei8ei6ee", b"li2147483647ee",
    b"li0ee", b"li-1ee", b"li2147483648ee", b"li4294967297ee",
    b"li9223372036854775808ee", b"li18446744073709551617ee", b"l1:ae", b"l0:e",
    b"li1e1:ae", b"li1eei2e", b"li1eee", b"li1eex", b"li1ee ", b"lee",
    b"lei1e", b"lli1eee", b"llee", b"ldee", b"li01ee", b"li00ee", b"li-0ee",
    b"li+1ee", b"lie", b"liee", b"li1e", b"li1", b"li", b"e", b"x", b" li1ee",
    b"Li1ee", b"li1ei0ee", b"li1ei2147483648ee",
    b"li1ei2ei3ei4ei5ei6ei7ei8ei9ei10ee",
]
TAGS = (0, 1, 9, 10, LARGEST, LARGEST + 1, 2**32 - 1)
WRITER_KEYS = list(range(22)) + [256 + 1, 65536 + 16, 2**31 + 5, 2**32 - 1]


def writing(key, kind, number, tag, room, data=b""):
    return b"w", struct.pack("<IBqII", key, kind, number, tag, room) + data


def kinds_and_values():
    """Each key with each kind of value, and room in plenty."""
    for key in WRITER_KEYS:
        yield writing(key, 0, 0, 0, 200)
        yield writing(key, 0, 1, 7, 200)
        for number in NUMBERS:
            yield writing(key, 1, number, 0, 200)
        for data in HANDED:
            if 1 <= key <= 20 or len(data) < 6:
                yield writing(key, 2, 0, 0, 1200, data)
    for key in (5, 14, 16, 6):
        yield writing(key, 2, 2**40, 3, 99, b"li5ee")


def right_values(key):
    """Kind, integer and bytes of values that the writer takes."""
    form = TABLE[key - 1][1]
    return {"boolean": [(1, 0, b""), (1, 1, b"")],
            "port": [(1, 0, b""), (1, 65535, b"")],
            "integer": [(1, -2**63, b""), (1, 2**63 - 1, b""), (1, -1, b"")],
            "ignored": [(0, 0, b"")],
            "string": [(2, 0, b""), (2, 0, b"permission denied")],
            "ID list": [(2, 0, b"le"), (2, 0, b"li3ei8ei6ee")]}[form]


def tags_and_rooms():
    for key in range(1, 21):
        if key in (8, 10, 17):
            continue
        for (kind, number, data), tag in itertools.product(
                right_values(key), TAGS):
            size = write(key, kind, number, tag, MAX_BODY, data)[1]
            rooms = (size - 1, size, size + 1) if size else (0, 99)
            for room in rooms:
                yield writing(key, kind, number, tag, room, data)
        for room in (0, 1, 7, 8, 9, MAX_BODY):
            yield writing(key, kind, number, 5, room, data)


def faults_together():
    """Several faults at once: 40 before 41, 42 and 44."""
    for key, tag, room in itertools.product(
            WRITER_KEYS, (0, LARGEST + 1), (0, 12, 99)):
        for kind, number, data in ((0, 0, b""), (1, 1, b""), (1, 65536, b""),
                                   (2, 0, b"li1ee"), (2, 0, b"li0ee")):
            yield writing(key, kind, number, tag, room, data)


def long_values():
    """Texts and lists about the longest payload, with other faults."""
    for key, tag in ((4, 0), (6, LARGEST)):
        ending = integer(tag) if tag else b""
        spare = MAX_PAYLOAD - len(listing(string(KEYS[key - 1]), ending))
        fit = spare - len(b"32768:")
        for size in (fit - 1, fit, fit + 1):
            for room in (8 + MAX_PAYLOAD - 1, 8 + MAX_PAYLOAD):
                yield writing(key, 2, 0, tag, room, b"t" * size)
        yield writing(key, 2, 0, LARGEST + 1, 0, b"t" * (fit + 1))
    yield writing(4, 2, 0, 0, MAX_BODY, b"t" * (MAX_BODY - 21))
    for key, tag in ((16, 0), (15, 1)):
        ending = integer(tag) if tag else b""
        fit = MAX_PAYLOAD - len(listing(string(KEYS[key - 1]), ending))
        good, long = id_list(fit), id_list(fit + 1)
        for room in (8 + MAX_PAYLOAD - 1, 8 + MAX_PAYLOAD):
            yield writing(key, 2, 0, tag, room, good)
        yield writing(key, 2, 0, tag, MAX_BODY, long)
        yield writing(key, 2, 0, LARGEST + 1, 0, long)
    yield writing(16, 2, 0, LARGEST + 1, 0, long[:-4] + b"i0ee")
    yield writing(16, 2, 0, 0, MAX_BODY, long[:-4] + b"i0ee")
    yield writing(16, 2, 0, 0, MAX_BODY, long[:-1])
    yield writing(10, 2, 0, 0, MAX_BODY, long)
    yield writing(11, 2, 0, 0, MAX_BODY, long)


def decimal_borders():
    """Integers and tags about each digit of each place, lengths about each power of ten."""
    numbers = {digit * 10**place + step for place in range(19)
               for digit in range(1, 10) for step in (-1, 0)}
    for number in sorted(n for n in numbers if n < 2**63):
        yield writing(5, 1, number, 0, 99)
        yield writing(20, 1, -number, 0, 99)
        if number <= LARGEST:
            yield writing(19, 0, 0, number, 99)
    for place, step in itertools.product(range(1, 5), (-1, 0)):
        yield writing(6, 2, 0, 0, MAX_BODY, b"t" * (10**place + step))


def random_writings(chance, count):
    for _ in range(count):
        key = chance.below(22)
        size = 10 ** chance.below(19)
        number = chance.below(2 * size + 1) - size
        ids = [integer(1 + chance.below(10 ** (1 + chance.below(9))))
               for _ in range(chance.below(6))]
        data = listing(*ids)
        if chance.below(2):
            data = mutated(chance, data)
        kind = 1 + chance.below(2)
        yield writing(key, kind, number if kind == 1 else 0,
                      chance.pick((0, chance.below(2**31))),
                      chance.below(120), data if kind == 2 else b"")


ENDS = (0, 1, 2, 9, 10, LARGEST - 1, LARGEST, LARGEST + 1, 2**32 - 1)


def handshake_writings():
    for least, most in itertools.product(ENDS, repeat=2):
        size = 8 + len(dictionary((b"version", ranged(
            integer(least), integer(most)))))
        for room in (0, 8, size - 1, size, size + 1, MAX_BODY):
            yield b"s", struct.pack("<III", least, most, room)


def agreements(chance):
    ends = (0, 1, 2, 5, LARGEST, LARGEST + 1, 2**32 - 1)
    ranges = list(itertools.product(ends, repeat=2))
    for one, two in itertools.product(ranges, repeat=2):
        yield b"a", struct.pack("<IIII", *one, *two)
    for _ in range(400):
        values = [1 + chance.below(9) for _ in range(4)]
        yield b"a", struct.pack("<IIII", *values)


def write_cases():
    chance = Chance(0xA0761D6478BD642F)
    return itertools.chain(
        kinds_and_values(), tags_and_rooms(), faults_together(),
        long_values(), random_writings(chance, 600), handshake_writings(),
        agreements(chance), decimal_borders())


# Cases of the strict reader.

def strict_again():
    """Frames of the loose reader: those on which the profiles differ, all but
    the long ones, some of them with sorted dictionaries too, and one of eight
    of the others."""
    others = unsorted = 0
    for _, body in read_cases():
        if len(body) > 400:
            continue
        loose = read(body)
        if read(body, True) == loose:
            others += 1
            if others % 8 == 0:
                yield body
            continue
        yield body
        unsorted += loose.code == 0
        if loose.code == 0 and unsorted % 3 == 0:
            yield in_order(body)


def in_order(whole):
    """An accepted frame, and nothing after it, with sorted dictionaries."""
    payload = whole[8:read(whole).consumed]
    return frame(sort(payload, MAX_PAYLOAD)[2])


# Entries whose keys fall, and the same in order.
FALLING = [(b"b", b"i1e"), (b"a", b"i2e")]
RISING = FALLING[::-1]
NAME, HASH = (b"name", b"1:x"), (b"hash", b"0:")


def strict_torrents():
    """Keys in every order, in the list, in a torrent and below it."""
    for key in (b"info", b"status"):
        for order in itertools.permutations((HASH, ID, NAME)):
            torrent = dictionary(*order)
            yield message(key, listing(torrent))
            yield message(key, listing(dictionary(ID), torrent), b"i7e")
        for entries in (FALLING, RISING):
            inner = dictionary(*entries)
            yield message(key, inner)
            yield message(key, listing(inner))
            yield message(key, listing(dictionary(ID, (b"x", inner))))
            yield message(key, listing(dictionary((b"a", inner), ID)))
            yield message(key, listing(dictionary(ID, (b"x", listing(inner)))))
            yield message(key, listing(dictionary((b"id", inner))))
            yield message(key, listing(dictionary(ID), b"i1e", inner))
            yield message(key, listing(dictionary(ID)), inner)
            yield message(key, listing(dictionary(ID)), b"i1e", inner)
            for depth in range(1, 15):
                for kind in "ld":
                    deep = nested(kind * depth, inner)
                    yield message(key, listing(dictionary(ID, (b"x", deep))))


def strict_messages():
    """Every key with a value whose keys fall, and with one whose keys rise."""
    for key, form in TABLE + [(b"x", "any"), (b"\xff", "any"), (b"", "any")]:
        for entries in (FALLING, RISING):
            inner = dictionary(*entries)
            yield message(key, inner, b"i9e")
            yield message(key, listing(b"i1e", inner))
            yield message(key, RIGHT.get(form, b"0:"), inner)
            yield frame(listing(string(key), inner)) + b"0000"
    for entries in (FALLING, RISING):
        inner = dictionary(*entries)
        yield frame(inner)
        yield frame(listing(inner))
        yield frame(listing(inner, inner))
        yield frame(listing(b"i1e", inner, b"i1e"))
        for depth in range(1, 17):
            for kinds in ("l" * depth, "d" * depth, ("ld" * depth)[:depth]):
                yield frame(nested(kinds, inner))
    # Lists, and what a string holds, need be in no order.
    yield message(b"get-status-all", b"l1:b1:ae")
    yield message(b"start", b"li2ei1ee")
    yield message(b"failed", string(dictionary(*FALLING)))


def strict_handshakes():
    least, most = (b"min", b"i1e"), (b"max", b"i2e")
    version = (b"version", dictionary(most, least))
    for order in itertools.permutations((least, most, (b"x", b"0:"))):
        yield hello(dictionary(*order))
        yield hello(dictionary(*order), (b"z", b"0:"))
    for order in itertools.permutations((version, (b"a", b"0:"),
                                         (b"z", b"de"))):
        yield frame(dictionary(*order))
        yield frame(dictionary(*order, order[0]))
    for entries in (FALLING, RISING):
        inner = dictionary(*entries)
        yield frame(dictionary((b"a", inner), version))
        yield frame(dictionary(version, (b"z", listing(inner))))
        yield hello(dictionary(most, least, (b"z", inner)))
        yield hello(dictionary((b"a", inner), most, least))
        yield hello(inner)
    for low, high in ((b"i0e", b"i2e"), (b"i3e", b"i2e"), (b"0:", b"i2e")):
        yield hello(dictionary((b"min", low), (b"max", high)))
        yield hello(dictionary((b"max", high), (b"min", low)))


# Keys in an order that a wrong comparison takes the other way round.
ORDERS = [
    (b"aa", b"b"), (b"b", b"aa"), (b"aaaaaaaaaa", b"b" * 9), (b"", b"\x01"),
    (b"a" * 9, b"a" * 10), (b"a" * 10, b"a" * 9), (b"\x7f", b"\xc2\x80"),
    (b"\xc2\x80", b"\x7f"), (b"\xef\xbf\xbf", b"\xf0\x90\x80\x80"),
    (b"B", b"a"), (b"a", b"B"), (b"10", b"9"), (b"9", b"10"),
    (b"abcdefgha", b"abcdefghb"), (b"abcdefghb", b"abcdefgha"),
    (b"abcdefgh", b"abcdefgha"), (b"abcdefgha", b"abcdefgh"),
]


def strict_keys():
    """8 before 11, 10 before 11, and 11 at first and later keys."""
    for size in (2, 3, 4):
        for keys in itertools.product((b"a", b"b", b"c"), repeat=size):
            yield hello(b"i2e", *((b"w" + key, b"0:") for key in keys))
    for bad in (b"\xff", b"a\xff", b"a\x00", b"z\x00"):
        for order in itertools.permutations((b"b", b"m", bad)):
            yield frame(dictionary(*((key, b"0:") for key in order)))
        for key in (b"a", b"b", b"c"):
            yield frame(dictionary((b"b", b"0:"), (key, b"0:"), (bad, b"0:")))
    for keys in ORDERS:
        entries = [(key, integer(at)) for at, key in enumerate(keys)]
        yield message(b"noop", dictionary(*entries))
        yield message(b"info", listing(dictionary((b"id", b"i3e"), (
            b"x", dictionary(*entries)))))


def strict_faults():
    """Faults before and after an 11, in its key and in its value."""
    for bad in FAULTY:
        yield frame(dictionary(*FALLING, (b"c", bad)))
        yield frame(dictionary((b"b", b"0:"), (b"a", bad)))
        yield frame(dictionary((b"b", bad), (b"a", b"0:")))
        yield frame(dictionary(*FALLING) + bad)
        yield message(b"noop", dictionary(*FALLING), bad)
        yield message(b"info", listing(bad, dictionary(*FALLING)))
        yield message(b"info", listing(dictionary(ID, HASH)), bad)
    for whole in (frame(dictionary(*FALLING)), hello(ranged(b"i1e", b"i2e")),
                  message(b"info", listing(dictionary(NAME, ID)))):
        for size in range(len(whole)):
            yield whole[:size]
            yield frame(whole[8:][:size])


def strict_cases():
    groups = [strict_again(), strict_torrents(), strict_messages(),
              strict_handshakes(), strict_keys(), strict_faults()]
    longest = frame(filled(b"info", info_list, MAX_PAYLOAD))
    groups.append([longest, in_order(longest)])
    for body in dict.fromkeys(itertools.chain(*groups)):
        yield b"R", body


def main(folder):
    made = itertools.chain(read_cases(), write_cases(), strict_cases())
    cases, lines, counts = bytearray(), bytearray(), {}
    for operation, body in dict.fromkeys(made):
        assert len(body) <= MAX_BODY
        text = line(operation, body)
        assert text != FAULT
        # The strict profile adds 11, and nothing else.
        assert (operation != b"R" or text.startswith("11 ")
                or text == line(b"r", body))
        cases += operation + struct.pack("<I", len(body)) + body
        lines += text.encode() + b"\n"
        row = counts.setdefault(operation.decode(), {})
        code = int(text.split()[0]) if operation != b"a" else "version"
        row[code] = row.get(code, 0) + 1
    cases += b"r" + struct.pack("<I", 18) + b"0000000Al4:noop0:"
    lines += FAULT.encode() + b"\n"
    assert len(cases) <= SIZE_LIMIT and len(lines) <= LINES_LIMIT
    (folder / "stdin").write_bytes(cases)
    (folder / "stdout").write_bytes(lines)
    for operation, row in counts.items():
        print(operation, sum(row.values()), "cases; by code:", row)
    print("and a cut case; bytes:", len(cases), len(lines))


if __name__ == "__main__":
    if len(sys.argv) != 2:
        sys.exit("usage: python3 -B -m generate.frame_cases FOLDER")
    main(pathlib.Path(sys.argv[1]))
