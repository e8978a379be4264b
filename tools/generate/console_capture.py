"""Captures for the consoles, and the lines that they must print. In tools/:

  python3 -B -m generate.console_capture FOLDER
      writes the stored capture, capture.bin and capture.txt
  python3 -B -m generate.console_capture --random SEED
      writes a random capture to standard output
  python3 -B -m generate.console_capture --lines
      writes the lines for a capture from standard input

The lines come from oracle.frame, which shares no code with the library.
"""

import pathlib
import random
import sys

from oracle.frame import MAX_PAYLOAD, TABLE, decode, read


# The lines of a capture.

def text(data):
    def shown(byte):
        plain = 32 <= byte < 127 and byte not in b'"\\'
        return chr(byte) if plain else "\\x%02x" % byte
    return '"' + "".join(map(shown, data)) + '"'


def shown(value):
    if value.what == "i":
        return str(value.content)
    if value.what == "s":
        return text(value.content)
    if value.what == "l":
        return "[" + ", ".join(map(shown, value.content)) + "]"
    return "{" + ", ".join(text(key) + ": " + shown(item)
                           for key, item in value.content.items()) + "}"


def answer_line(frame, answer):
    tag = " tag %d" % answer.tag if answer.tag else ""
    if answer.code == 22:
        return "refused 22 at 0, " + TABLE[answer.key - 1][0].decode() + tag
    if answer.code:
        return "refused %d at %d" % (answer.code, answer.offset)
    if answer.kind == "h":
        return "handshake %s to %s" % tuple(answer.value[1:].split(","))
    key, value = decode(frame[8:], 0).content[:2]
    name = key.content.decode() if answer.key else text(key.content)
    return name + ("" if answer.value == "-" else " " + shown(value)) + tag


def lines(capture):
    """What a console prints for a capture."""
    at, out = 0, []
    while at < len(capture):
        frame = capture[at:at + 8 + MAX_PAYLOAD]
        answer = read(frame)
        if answer.code == 1:
            return out + ["%d: cut after %d bytes" % (at, len(frame))]
        out.append("%d: %s" % (at, answer_line(frame, answer)))
        if answer.code in (2, 3):
            return out + ["%d: stopped, no next frame is known" % at]
        length = answer.consumed or 8 + int(frame[:8], 16)
        if at + length > len(capture):
            left = len(capture) - at
            return out + ["%d: cut after %d bytes" % (at, left)]
        at += length
    return out


# Captures.

def frame(payload):
    return b"%08X%s" % (len(payload), payload)


def string(data):
    return b"%d:%s" % (len(data), data)


def torrent(number):
    return (b"d2:idi%de4:name%s5:errord7:message0:ee" % (
        number, string(b"torrent number %d" % number)))


# Payloads of every kind of line; the random captures have those of faulty and
# over-long frames too.
STORED = [
    b"d7:versiond3:mini1e3:maxi2eee",
    b"d5:label12:Transmission7:versioni2ee",
    b"l4:infol" + b"".join(map(torrent, (3, 8, 2147483647))) + b"ei1ee",
    b"l6:statusld2:idi3e14:download-speedi512000eed2:idi8eeei2ee",
    b"l9:downlimiti-1ee",
    b"l7:uplimiti9223372036854775807ei3ee",
    b"l9:downlimiti-9223372036854775808ee",
    b"l4:porti51413ei4ee",
    b"l3:pexi1ee",
    b"l9:directory%se" % string(b"/srv/\xc3\xa4 \"x\"\\\n"),
    b"l6:failed17:no such torrent 9i2147483647ee",
    b"l9:succeeded0:i15ee",
    b"l13:not-supportedd3:anyli1eeei16ee",
    b"l14:get-status-alll2:id4:name0:ee",
    b"l4:stoplee",
    b"l5:startli8ei8ei3eee",
    b"l12:x-vendor key" + b"d1:z0:1:ald1:bleeeee",
    b"l2:\xff\x00d3:\xe2\x82\xac1:\xffee",
    b"l0:i-7ei5ee",
    b"l4:porti65536ei6ee",
    b"l9:succeeded0:i0ee",
    b"d3:mini1ee",
    b"i7e",
    b"i-0e",
    b"i9223372036854775808e",
    b"l" * 17 + b"e" * 17,
    b"d1:ai1e1:ai2ee",
    b"i7ex",
    b"d2:\xc3\xa4i1e1:\xffi2ee",
    b"",
]


def stored():
    return b"".join(map(frame, STORED)) + b"00000012l5:st"


def random_value(rng, levels):
    kind = rng.randrange(4 if levels else 2)
    if kind == 0:
        return b"i%de" % rng.choice(
            (0, 1, 7, -1, 65535, 65536, 2**31 - 1, 2**31, 2**63 - 1, -2**63,
             2**63, rng.randrange(-10**6, 10**6)))
    if kind == 1:
        return string(rng.randbytes(rng.choice((0, 1, 3, 9, 12))))
    if kind == 2:
        return b"l%se" % b"".join(random_value(rng, levels - 1)
                                  for _ in range(rng.randrange(4)))
    keys = rng.sample([b"id", b"min", b"max", b"version", b"a", b"",
                       b"\xc3\xa4"], 3)
    if rng.randrange(16) == 0:
        keys[0] = rng.choice((b"\xc3", b"a\x00"))
    return b"d%se" % b"".join(string(key) + random_value(rng, levels - 1)
                              for key in keys[:rng.randrange(4)])


def fitting_value(rng, form):
    """A value that mostly has a key's format."""
    numbers = [rng.choice((1, 8, 2**31 - 1)) for _ in range(rng.randrange(4))]
    if form in ("boolean", "port", "integer"):
        return b"i%de" % rng.choice((0, 1, 1, 65535, -1))
    if form == "string":
        return string(rng.randbytes(rng.randrange(20)))
    if form == "string list":
        return b"l%se" % b"".join(string(b"%d" % n) for n in numbers)
    if form == "ID list":
        return b"l%se" % b"".join(b"i%de" % n for n in numbers)
    if form == "torrent list":
        return b"l%se" % b"".join(map(torrent, numbers))
    return random_value(rng, 3)


def random_payload(rng):
    if rng.randrange(8) == 0:
        return random_value(rng, rng.choice((0, 2, 4)))
    if rng.randrange(8) == 0:
        return b"d7:versiond3:mini%de3:maxi%deee" % (
            rng.randrange(4), rng.randrange(5))
    key, form = rng.choice(TABLE + [(b"x\"y", "any"), (b"", "any")])
    value = (random_value(rng, 3) if rng.randrange(4) == 0
             else fitting_value(rng, form))
    tag = rng.choice((b"", b"", b"i7e", b"i2147483647e", b"i0e"))
    return b"l%s%s%se" % (string(key), value, tag)


def random_capture(seed):
    rng = random.Random(seed)
    out = bytearray()
    for _ in range(rng.randrange(400)):
        payload = random_payload(rng)
        if rng.randrange(20) == 0:
            payload = b"l6:failed%se" % string(
                rng.randbytes(rng.randrange(32700, 32800)))
        out += frame(payload)
    for _ in range(rng.choice((0, 0, 1, 5, 50))):
        if out:
            out[rng.randrange(len(out))] = rng.choice(b"0189aFGilde:-x")
    if rng.randrange(2):
        del out[rng.randrange(len(out) + 1):]
    return bytes(out)


def main(arguments):
    if len(arguments) == 2 and arguments[0] == "--random":
        sys.stdout.buffer.write(random_capture(int(arguments[1])))
    elif arguments == ["--lines"]:
        for line in lines(sys.stdin.buffer.read()):
            print(line)
    elif len(arguments) == 1:
        folder = pathlib.Path(arguments[0])
        (folder / "capture.bin").write_bytes(stored())
        (folder / "capture.txt").write_text(
            "".join(line + "\n" for line in lines(stored())))
    else:
        sys.exit(__doc__.strip())


if __name__ == "__main__":
    main(sys.argv[1:])
