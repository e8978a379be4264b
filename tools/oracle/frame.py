"""Oracle for frames: reader, writer, handshake and agreed version.

read(data, strict) gives an Answer: code, offset, consumed, kind (m message,
h handshake, - none), key number, tag and value. The value is written as
`-` nothing, `iN` integer, `tOFFSET,LENGTH` text, `pOFFSET,LENGTH` list or
unlisted value, `hMIN,MAX` handshake. Value offsets count from the frame's
first byte, those of faults 5 to 11 from the payload's. The strict profile
differs from the loose one in the payload's walk alone.

write and write_handshake give code, count and frame; agreed gives a version.
line(operation, body) is the line that the conformance program prints.

In tools/, python3 -B -m oracle.frame --self-test checks the examples of the
rules.
"""

import collections
import struct
import sys

from oracle.payload import walk

MAX_FRAME_LENGTH = 2147483640
MAX_PAYLOAD = 32768
MAX_NUMBER = 2147483647  # of a tag, a torrent ID and a version
MAX_PORT = 65535
HEX_DIGITS = frozenset(b"0123456789abcdefABCDEF")
NOTHING, INTEGER, BYTES = 0, 1, 2  # kinds of value handed to the writer
FAULT = "case fault"

# Key and format; a key's number is its place, counted from 1.
TABLE = [
    (b"automap", "boolean"), (b"autostart", "boolean"),
    (b"bad-format", "ignored"), (b"directory", "string"),
    (b"downlimit", "integer"), (b"failed", "string"),
    (b"get-downlimit", "ignored"), (b"get-status-all", "string list"),
    (b"get-uplimit", "ignored"), (b"info", "torrent list"),
    (b"noop", "ignored"), (b"not-supported", "ignored"),
    (b"pex", "boolean"), (b"port", "port"), (b"remove", "ID list"),
    (b"start", "ID list"), (b"status", "torrent list"), (b"stop", "ID list"),
    (b"succeeded", "ignored"), (b"uplimit", "integer"),
]
NUMBERS = {key: number for number, (key, _) in enumerate(TABLE, 1)}
NOT_WRITTEN = (8, 10, 17)

Answer = collections.namedtuple(
    "Answer", "code offset consumed kind key tag value")

# A decoded value: what it is (i, s, l or d), where its bytes start and end,
# and its content: an integer, a text, a list, or a dict with bytes as keys.
Value = collections.namedtuple("Value", "what start end content")


def decode(payload, at):
    """The value that starts at this place of a sound payload."""
    what = payload[at:at + 1]
    if what == b"i":
        end = payload.index(b"e", at)
        return Value("i", at, end + 1, int(payload[at + 1:end]))
    if what not in (b"l", b"d"):
        colon = payload.index(b":", at)
        end = colon + 1 + int(payload[at:colon])
        return Value("s", at, end, payload[colon + 1:end])
    inner, end = [], at + 1
    while payload[end:end + 1] != b"e":
        inner.append(decode(payload, end))
        end = inner[-1].end
    if what == b"l":
        return Value("l", at, end + 1, inner)
    keys = [key.content for key in inner[::2]]
    return Value("d", at, end + 1, dict(zip(keys, inner[1::2])))


def is_number(value):
    """An integer that can be a tag, a torrent ID or a version."""
    return value.what == "i" and 1 <= value.content <= MAX_NUMBER


def is_torrent(value):
    return (value.what == "d" and b"id" in value.content
            and is_number(value.content[b"id"]))


def fits(form, value):
    """Whether a decoded value has a key's format."""
    if form == "ignored":
        return True
    if form == "string":
        return value.what == "s"
    if form in ("boolean", "port", "integer"):
        return value.what == "i" and integer_fits(form, value.content)
    test = {"ID list": is_number, "torrent list": is_torrent,
            "string list": lambda item: item.what == "s"}[form]
    return value.what == "l" and all(test(item) for item in value.content)


def integer_fits(form, n):
    return (form == "integer" or form == "boolean" and 0 <= n <= 1
            or form == "port" and 0 <= n <= MAX_PORT)


# The reader.

def refused(code, offset):
    return Answer(code, offset, 0, "-", 0, 0, "-")


def read(data, strict=False):
    """The reader's answer to these bytes, in the order of the rules."""
    header = data[:8]
    for place, byte in enumerate(header):
        if byte not in HEX_DIGITS:
            return refused(2, place)
    if len(header) < 8:
        return refused(1, 0)
    length = int(header, 16)
    if length > MAX_FRAME_LENGTH:
        return refused(3, 0)
    if length > MAX_PAYLOAD:
        return refused(4, 0)
    payload = data[8:8 + length]
    if len(payload) < length:
        return refused(1, 0)
    code, offset = walk(payload, strict)
    if code:
        return refused(code, offset)
    value = decode(payload, 0)
    if value.what == "d":
        return read_handshake(value, 8 + length)
    return read_message(value, 8 + length)


def read_message(value, consumed):
    """The answer to a sound payload that is no dictionary."""
    items = value.content
    if (value.what != "l" or len(items) not in (2, 3)
            or items[0].what != "s"
            or len(items) == 3 and not is_number(items[2])):
        return refused(20, 0)
    tag = items[2].content if len(items) == 3 else 0
    key = NUMBERS.get(items[0].content, 0)
    form = TABLE[key - 1][1] if key else "any"
    if key and not fits(form, items[1]):
        return Answer(22, 0, 0, "m", key, tag, "-")
    return Answer(0, 0, consumed, "m", key, tag, named(form, items[1]))


def named(form, value):
    """How the answer names a message's value."""
    if form == "ignored":
        return "-"
    if form in ("boolean", "port", "integer"):
        return "i%d" % value.content
    if form == "string":
        size = len(value.content)
        return "t%d,%d" % (8 + value.end - size, size)
    return "p%d,%d" % (8 + value.start, value.end - value.start)


def read_handshake(value, consumed):
    """The answer to a sound payload that is a dictionary."""
    version = value.content.get(b"version")
    if version is None:
        return refused(21, 0)
    ends = (version, version)
    if version.what == "d":
        ends = (version.content.get(b"min"), version.content.get(b"max"))
    if any(end is None or end.what != "i" for end in ends):
        return refused(21, 0)
    least, most = ends[0].content, ends[1].content
    if not is_range(least, most):
        return refused(21, 0)
    return Answer(0, 0, consumed, "h", 0, 0, "h%d,%d" % (least, most))


def is_range(least, most):
    return 1 <= least <= most <= MAX_NUMBER


def agreed(min1, max1, min2, max2):
    """The largest version in both ranges, or 0."""
    if not (is_range(min1, max1) and is_range(min2, max2)):
        return 0
    largest = min(max1, max2)
    return largest if largest >= max(min1, min2) else 0


# The writer.

def value_bytes(form, kind, integer, data):
    """The bencoded value to write, or None if it is off the format."""
    if form == "ignored":
        return b"0:" if kind == NOTHING else None
    if form == "string":
        return b"%d:%s" % (len(data), data) if kind == BYTES else None
    if form == "ID list":
        sound = kind == BYTES and walk(data, False) == (0, len(data))
        return data if sound and fits(form, decode(data, 0)) else None
    if kind == INTEGER and integer_fits(form, integer):
        return b"i%de" % integer
    return None


def write(key, value_kind, integer, tag, room, data):
    """Code, byte count and frame for one message; 0 is no tag."""
    if not 1 <= key <= len(TABLE) or key in NOT_WRITTEN:
        return 40, 0, b""
    name, form = TABLE[key - 1]
    value = value_bytes(form, value_kind, integer, data)
    if value is None:
        return 41, 0, b""
    if tag > MAX_NUMBER:
        return 42, 0, b""
    ending = b"i%de" % tag if tag else b""
    payload = b"l%d:%s%s%se" % (len(name), name, value, ending)
    if len(payload) > MAX_PAYLOAD:
        return 43, 0, b""
    return lend(payload, room)


def write_handshake(least, most, room):
    """Code, byte count and frame for one handshake."""
    if not is_range(least, most):
        return 41, 0, b""
    return lend(b"d7:versiond3:mini%de3:maxi%deee" % (least, most), room)


def lend(payload, room):
    frame = b"%08X%s" % (len(payload), payload)
    if room < len(frame):
        return 44, 0, b""
    return 0, len(frame), frame


# The lines of the conformance program.

def written_line(answer):
    code, count, frame = answer
    return "%d %d" % (code, count) + (" " + frame.hex() if count else "")


def line(operation, body):
    """The line for one case, without its newline."""
    if operation in (b"r", b"R"):
        return " ".join(map(str, read(body, operation == b"R")))
    if operation == b"w" and len(body) >= 21 and body[4] <= BYTES:
        fields = struct.unpack("<IBqII", body[:21])
        return written_line(write(*fields, body[21:]))
    if operation == b"s" and len(body) == 12:
        return written_line(write_handshake(*struct.unpack("<III", body)))
    if operation == b"a" and len(body) == 16:
        return str(agreed(*struct.unpack("<IIII", body)))
    return FAULT


# The frames to try, by hand.
TO_TRY = [
    (b"", "1 0 0 - 0 0 -"),
    (b"00000000", "5 0 0 - 0 0 -"),
    (b"7FFFFFF8", "4 0 0 - 0 0 -"),
    (b"7FFFFFF9", "3 0 0 - 0 0 -"),
    (b"00008000", "1 0 0 - 0 0 -"),
    (b"00008001", "4 0 0 - 0 0 -"),
    (b"0000001dd7:versiond3:mini1e3:maxi2eee", "0 0 37 h 0 0 h1,2"),
    (b"00000010l5:startli8eei15ee", "5 16 0 - 0 0 -"),
    (b"00000012l5:startli8eei15ee", "0 0 26 m 16 15 p16,5"),
    (b"00000004i-0e", "5 2 0 - 0 0 -"),
    (b"00000003i7e", "20 0 0 - 0 0 -"),
    (b"00000015i9223372036854775808e", "6 0 0 - 0 0 -"),
    (b"0000000Ed1:ai1e1:ai2ee", "8 7 0 - 0 0 -"),
    (b"0000000Fl4:porti65536ee", "22 0 0 m 14 0 -"),
    (b"0000000Fl4:porti65535ee", "0 0 23 m 14 0 i65535"),
    (b"00000020" + b"l" * 16 + b"e" * 16, "20 0 0 - 0 0 -"),
    (b"00000022" + b"l" * 17 + b"e" * 17, "7 16 0 - 0 0 -"),
]

# The reader's table and the order of its rows, by hand.
READINGS = [
    (b"0000000Al4:noop0:e" + b"0000", "0 0 18 m 11 0 -"),
    (b"0000000", "1 0 0 - 0 0 -"),
    (b"FFFFFFF", "1 0 0 - 0 0 -"),
    (b"0000000Al4:noop0:", "1 0 0 - 0 0 -"),
    (b"G", "2 0 0 - 0 0 -"),
    (b"0000000:", "2 7 0 - 0 0 -"),
    (b"FFxFyFFF", "2 2 0 - 0 0 -"),
    (b"ffffffff", "3 0 0 - 0 0 -"),
    (b"00000005i1xe ", "5 2 0 - 0 0 -"),
    (b"00000006lei1ex", "9 2 0 - 0 0 -"),
    (b"00000003i1eX", "20 0 0 - 0 0 -"),
    (b"00000002le", "20 0 0 - 0 0 -"),
    (b"00000002de", "21 0 0 - 0 0 -"),
    (b"00000004l0:e", "20 0 0 - 0 0 -"),
    (b"00000006l0:0:e", "0 0 14 m 0 0 p11,2"),
    (b"0000000Dl3:pexi2ei0eei", "20 0 0 - 0 0 -"),
    (b"0000000Dl3:pexi2ei7eei", "22 0 0 m 13 7 -"),
    (b"0000000Dl3:pexi1ei7eei", "0 0 21 m 13 7 i1"),
    (b"0000000Fl6:failed3:abcei", "0 0 23 m 6 0 t19,3"),
    (b"0000000Fd7:versioni02ee", "5 12 0 - 0 0 -"),
    (b"0000000Ed7:versioni0ee", "21 0 0 - 0 0 -"),
    (b"0000000Ed7:versioni3ee", "0 0 22 h 0 0 h3,3"),
    (b"00000013l4:infold2:idi5eeee", "0 0 27 m 10 0 p15,11"),
    (b"00000013l4:infold2:idi0eeee", "22 0 0 m 10 0 -"),
    # Keys are text in every dictionary; a message's key is any string.
    (b"00000007d1:\xff0:e", "10 1 0 - 0 0 -"),
    (b"00000013d7:versioni3e1:\x000:e", "10 13 0 - 0 0 -"),
    (b"00000023d7:versiond3:mini1e3:maxi2e2:\xc0\x800:ee",
     "10 27 0 - 0 0 -"),
    (b"00000018l4:infold2:idi5e1:\xff0:eee", "10 16 0 - 0 0 -"),
    (b"00000018l4:infold1:\xff0:2:idi5eeee", "10 9 0 - 0 0 -"),
    (b"0000000El4:infolded1:\xff", "10 11 0 - 0 0 -"),
    (b"0000000Fl4:noopd1:\xff0:ee", "10 8 0 - 0 0 -"),
    (b"0000000Fl4:portd1:\xff0:ee", "10 8 0 - 0 0 -"),
    (b"0000000Cl1:\xffd1:\x800:ee", "10 5 0 - 0 0 -"),
    (b"00000008l1:\xff1:\x00e", "0 0 16 m 0 0 p12,3"),
    (b"0000000Dl6:failed1:\xffe", "0 0 21 m 6 0 t19,1"),
]

# Frames and their lines in the strict profile, by hand.
STRICT_READINGS = [
    (b"", "1 0 0 - 0 0 -"),
    (b"0000001dd7:versiond3:mini1e3:maxi2eee", "11 19 0 - 0 0 -"),
    (b"0000001dd7:versiond3:maxi2e3:mini1eee", "0 0 37 h 0 0 h1,2"),
    (b"00000012l5:startli8eei15ee", "0 0 26 m 16 15 p16,5"),
    (b"00000014d1:ai1e1:bi2e1:ai3ee", "8 13 0 - 0 0 -"),
    (b"00000014d1:bi1e1:ai2e1:bi3ee", "11 7 0 - 0 0 -"),
    (b"0000000Ed1:bi1e1:ai2ee", "11 7 0 - 0 0 -"),
    (b"0000000Ed1:bi1e2:a\xffi2e", "10 7 0 - 0 0 -"),
    (b"0000000Ad1:bi1e1:a", "11 7 0 - 0 0 -"),
    (b"00000009d1:bi1e1:", "5 9 0 - 0 0 -"),
    (b"0000001Cl4:infold4:name1:x2:idi5eeee", "11 18 0 - 0 0 -"),
    (b"0000001Cl4:infold2:idi5e4:name1:xeee", "0 0 36 m 10 0 p15,20"),
    # A value that is ignored, unlisted or off its format is walked too.
    (b"00000014l4:noopd1:b0:1:a0:ee", "11 13 0 - 0 0 -"),
    (b"00000011l1:xd1:b0:1:a0:ee", "11 10 0 - 0 0 -"),
    (b"00000014l4:portd1:b0:1:a0:ee", "11 13 0 - 0 0 -"),
    (b"00000014l4:portd1:a0:1:b0:ee", "22 0 0 m 14 0 -"),
]

# Each listed key with a right value and, if there is one, a wrong value.
ROWS = [
    (1, b"l7:automapi1ee", "i1", b"l7:automapi2ee"),
    (2, b"l9:autostarti0ee", "i0", b"l9:autostarti-1ee"),
    (3, b"l10:bad-formatlee", "-", None),
    (4, b"l9:directory1:/e", "t22,1", b"l9:directoryi1ee"),
    (5, b"l9:downlimiti-9ee", "i-9", b"l9:downlimit2:-9e"),
    (6, b"l6:failed0:e", "t19,0", b"l6:failedlee"),
    (7, b"l13:get-downlimiti0ee", "-", None),
    (8, b"l14:get-status-alll1:aee", "p26,5", b"l14:get-status-alll1:ai1eee"),
    (9, b"l11:get-uplimitdee", "-", None),
    (10, b"l4:infolee", "p15,2", b"l4:infoldeee"),
    (11, b"l4:noop0:e", "-", None),
    (12, b"l13:not-supportedi1ee", "-", None),
    (13, b"l3:pexi1ee", "i1", b"l3:pex1:1e"),
    (14, b"l4:porti0ee", "i0", b"l4:porti-1ee"),
    (15, b"l6:removelee", "p17,2", b"l6:removeli0eee"),
    (16, b"l5:startli2ei2eee", "p16,8", b"l5:starti2ee"),
    (17, b"l6:statusld2:idi7eeee", "p17,11", b"l6:statusd2:idi7eee"),
    (18, b"l4:stopli2147483647eee", "p15,14", b"l4:stopli2147483648eee"),
    (19, b"l9:succeeded1:xe", "-", None),
    (20, b"l7:uplimiti0ee", "i0", b"l7:uplimitli0eee"),
    (0, b"l4:Porti0ee", "p15,3", None),
]

# Key, value kind, integer, tag, room, bytes handed in; code and frame.
WRITINGS = [
    ((5, 1, -1, 0, 25, b""), 0, b"00000011l9:downlimiti-1ee"),
    ((20, 1, -1, 0, 99, b""), 0, b"0000000Fl7:uplimiti-1ee"),
    ((18, 2, 0, 0, 99, b"li3ee"), 0, b"0000000Dl4:stopli3eee"),
    ((16, 2, 0, 15, 26, b"li8ee"), 0, b"00000012l5:startli8eei15ee"),
    ((16, 2, 0, 15, 25, b"li8ee"), 44, b""),
    ((11, 0, 0, 0, 18, b""), 0, b"0000000Al4:noop0:e"),
    ((6, 2, 0, 0, 99, b""), 0, b"0000000Cl6:failed0:e"),
    ((11, 2, 0, 0, 18, b""), 41, b""),
    ((16, 2, 0, 0, 99, b""), 41, b""),
    ((16, 2, 0, 0, 99, b"leX"), 41, b""),
    ((16, 2, 0, 0, 99, b"li0ee"), 41, b""),
    ((14, 1, 65536, 0, 99, b""), 41, b""),
    ((13, 1, 2, 2**31, 0, b""), 41, b""),
    ((13, 1, 1, 2**31, 0, b""), 42, b""),
    ((13, 1, 1, 2**31 - 1, 0, b""), 44, b""),
    ((0, 0, 0, 0, 99, b""), 40, b""),
    ((8, 2, 0, 0, 99, b"le"), 40, b""),
    ((10, 2, 0, 0, 99, b"le"), 40, b""),
    ((17, 2, 0, 0, 99, b"le"), 40, b""),
    ((21, 2, 0, 2**31, 0, b"le"), 40, b""),
    # Around the text: l, 6:failed, 32752: and e, 16 bytes.
    ((6, 2, 0, 0, 0, b"x" * 32752), 44, b""),
    ((6, 2, 0, 0, 0, b"x" * 32753), 43, b""),
    ((6, 2, 0, 2**31, 0, b"x" * 32753), 42, b""),
]

AGREEMENTS = [
    ((1, 2, 1, 2), 2), ((1, 1, 1, 2), 1), ((1, 1, 2, 2), 0),
    ((2, 9, 3, 5), 5), ((0, 2, 1, 2), 0), ((2, 1, 1, 2), 0),
    ((1, 2**31, 1, 2), 0), ((1, 2**31 - 1, 1, 2**31 - 1), 2**31 - 1),
]


def self_test():
    for data, expected in TO_TRY + READINGS:
        assert line(b"r", data) == expected, (data, line(b"r", data))
    for data, expected in STRICT_READINGS:
        assert line(b"R", data) == expected, (data, line(b"R", data))
    for key, right, value, wrong in ROWS:
        expected = (0, 0, 8 + len(right), "m", key, 0, value)
        assert read(b"%08x%s" % (len(right), right)) == expected, right
        if wrong:
            expected = (22, 0, 0, "m", key, 0, "-")
            assert read(b"%08x%s" % (len(wrong), wrong)) == expected, wrong
    for arguments, code, frame in WRITINGS:
        answer = write(*arguments)
        assert answer == (code, len(frame), frame), (arguments[:5], answer)
    for arguments, version in AGREEMENTS:
        assert agreed(*arguments) == version, arguments
    hello = b"0000001Dd7:versiond3:mini1e3:maxi2eee"
    assert write_handshake(1, 2, 37) == (0, 37, hello)
    assert write_handshake(1, 2, 36) == (44, 0, b"")
    assert write_handshake(2, 1, 0) == (41, 0, b"")
    assert line(b"s", bytes([1, 0, 0, 0, 2, 0, 0, 0, 37, 0, 0, 0])) == (
        "0 37 " + hello.hex())
    assert line(b"a", b"\x01\0\0\0\x02\0\0\0" * 2) == "2"
    pex = b"\x0d\0\0\0\x01" + bytes(8) + b"\x07\0\0\0\x15\0\0\0"
    assert line(b"w", pex) == "0 21 " + b"0000000Dl3:pexi0ei7ee".hex()
    kind = pex[:4] + b"\x03" + pex[5:]
    for operation, body in ((b"w", pex[:-1]), (b"w", kind), (b"s", b""),
                            (b"a", b"12345"), (b"x", b"")):
        assert line(operation, body) == FAULT, (operation, body)
    print("self-test passed:", len(TO_TRY + READINGS + STRICT_READINGS),
          "frames read,",
          len(WRITINGS), "messages written")


if __name__ == "__main__":
    if sys.argv[1:] != ["--self-test"]:
        sys.exit("usage: python3 -B -m oracle.frame --self-test")
    self_test()
