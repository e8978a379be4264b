"""Wrong sorters, strict readers and walkers with one loop, held against the
stored cases.

Each one is a build with one mistake. Prints how many lines of the stored
cases it gets wrong, and fails if there is one that gets none wrong: then the
cases would not tell it from a right one.

In tools/: python3 -B -m check.wrong_builds
"""

import pathlib
import struct
import sys

from check.wrong_walkers import Flat
from oracle import frame, payload
from oracle.canonical import LARGEST_PAYLOAD, Reader
from oracle.payload import Fault, Parser, is_text, walk

CRATES = pathlib.Path(__file__).resolve().parents[2] / "crates"


def stored(crate, operation):
    """Body and line of each stored case of an operation."""
    stream = (CRATES / crate / "stdin").read_bytes()
    lines = (CRATES / crate / "stdout").read_text().splitlines()
    at = 0
    for text in lines[:-1]:
        size, = struct.unpack_from("<I", stream, at + 1)
        if stream[at:at + 1] == operation:
            yield stream[at + 5:at + 5 + size], text
        at += 5 + size


# Sorters.

class Sorter:
    """A right one, in parts that a wrong one changes."""

    limit = LARGEST_PAYLOAD

    def key(self, key):
        return key

    def entries(self, tree, level):
        return sorted(tree, key=lambda entry: self.key(entry[0]))

    def items(self, tree, level):
        return [self.written(item, level + 1) for item in tree]

    def entry(self, key, value, level):
        return b"%d:%s%s" % (len(key), key, self.written(value, level + 1))

    def written(self, tree, level):
        if isinstance(tree, bytes):
            return tree
        if isinstance(tree, list):
            return b"l" + b"".join(self.items(tree, level)) + b"e"
        return b"d" + b"".join(
            self.entry(key, value, level)
            for key, value in self.entries(tree, level)) + b"e"

    def fault(self, body):
        code, offset = walk(body, False)
        return (code, offset) if code else None

    def fits(self, body, room):
        return room >= len(body)

    def answer(self, body, room):
        """Code, offset and bytes."""
        if len(body) > self.limit:
            return 4, 0, b""
        fault = self.fault(body)
        if fault:
            return *fault, b""
        if not self.fits(body, room):
            return 44, 0, b""
        return 0, 0, self.written(Reader(body).value(), 1)

    def line(self, body):
        room = int.from_bytes(body[:4], "little")
        code, offset, out = self.answer(body[4:], room)
        text = "%d %d %d" % (code, offset, len(out))
        return text + " " + out.hex() if out else text


class LengthFirst(Sorter):
    def key(self, key):
        return len(key), key


class DecimalLength(Sorter):
    def key(self, key):
        return b"%d:%s" % (len(key), key)


class SignedBytes(Sorter):
    def key(self, key):
        return [byte - 256 if byte > 127 else byte for byte in key]


class Utf16(Sorter):
    def key(self, key):
        return key.decode().encode("utf-16-be")


class AnyCase(Sorter):
    def key(self, key):
        return key.lower()


class FirstByte(Sorter):
    def key(self, key):
        return key[:1]


class FirstEight(Sorter):
    def key(self, key):
        return key[:8]


class PrefixLast(Sorter):
    def key(self, key):
        return [*key, 256]


class Descending(Sorter):
    def key(self, key):
        return [*(255 - byte for byte in key), 256]


class Unsorted(Sorter):
    def entries(self, tree, level):
        return tree


class OuterOnly(Sorter):
    def entries(self, tree, level):
        return super().entries(tree, level) if level == 1 else tree


class InnermostOnly(Sorter):
    def entries(self, tree, level):
        inner = any(not isinstance(value, bytes) for _, value in tree)
        return tree if inner else super().entries(tree, level)


class FifteenLevels(Sorter):
    def entries(self, tree, level):
        return super().entries(tree, level) if level <= 15 else tree


class NotInLists(Sorter):
    def items(self, tree, level):
        return [Unsorted().written(item, level + 1) for item in tree]


class ListsToo(Sorter):
    def items(self, tree, level):
        return sorted(super().items(tree, level))


class KeysWithoutValues(Sorter):
    def entries(self, tree, level):
        keys = sorted(key for key, _ in tree)
        return zip(keys, (value for _, value in tree))


class OnePass(Sorter):
    """Neighbours exchanged in one pass."""

    def entries(self, tree, level):
        made = list(tree)
        for at in range(len(made) - 1):
            if made[at + 1][0] < made[at][0]:
                made[at], made[at + 1] = made[at + 1], made[at]
        return made


class ThousandKeys(Sorter):
    """Sorts 1,000 entries at most."""

    def entries(self, tree, level):
        return [*super().entries(tree[:1000], level), *tree[1000:]]


class LastWins(Sorter):
    def fault(self, body):
        found = super().fault(body)
        return None if found and found[0] == 8 and whole(body) else found

    def entries(self, tree, level):
        return sorted(dict(tree).items())


class FirstWins(LastWins):
    def entries(self, tree, level):
        return sorted(dict(tree[::-1]).items())


def whole(body):
    """Whether a payload with bad keys can be taken apart to its end."""
    try:
        reader = Reader(body)
        reader.value()
        return reader.at == len(body)
    except (ValueError, IndexError):
        return False


class RoomFirst(Sorter):
    def answer(self, body, room):
        if len(body) <= self.limit and room < len(body):
            return 44, 0, b""
        return super().answer(body, room)


class RoomBeforeLength(Sorter):
    def answer(self, body, room):
        if room < len(body):
            return 44, 0, b""
        return super().answer(body, room)


class FaultBeforeLength(Sorter):
    def answer(self, body, room):
        fault = self.fault(body)
        return (*fault, b"") if fault else super().answer(body, room)


class LimitLess(Sorter):
    limit = LARGEST_PAYLOAD - 1


class LimitMore(Sorter):
    limit = LARGEST_PAYLOAD + 1


class NoLimit(Sorter):
    limit = 2**32


class RoomLess(Sorter):
    def fits(self, body, room):
        return room > len(body)


class RoomMore(Sorter):
    def fits(self, body, room):
        return room >= len(body) - 1


class StrictSorter(Sorter):
    def fault(self, body):
        code, offset = walk(body, True)
        return (code, offset) if code else None


class NoTrailing(Sorter):
    def fault(self, body):
        found = super().fault(body)
        return None if found and found[0] == 9 else found


class NoText(Sorter):
    """Takes keys that are no text, where nothing else is wrong."""

    def fault(self, body):
        found = super().fault(body)
        return None if found and found[0] == 10 and whole(body) else found


class OffsetOfRoom(Sorter):
    def answer(self, body, room):
        code, offset, out = super().answer(body, room)
        return code, room if code == 44 else offset, out


# Strict readers: the parser of the oracle with another rule of keys.

class Keys(Parser):
    """A right one; level is that of the dictionary whose key is judged."""

    level = 0

    def key_fault(self, key, keys):
        if not is_text(key):
            return 10
        if key in keys:
            return 8
        return 11 if keys and key < keys[-1] else 0

    def dictionary(self, levels):
        self.expect("d")
        keys = []
        while self.peek() != ord("e"):
            start = self.pos
            key = self.string()
            self.level = levels
            code = self.key_fault(key, keys)
            if code:
                raise Fault(code, self.place(code, start, key))
            keys.append(key)
            self.value(levels)
        self.expect("e")

    def place(self, code, start, key):
        return start


class Loose(Keys):
    def key_fault(self, key, keys):
        code = super().key_fault(key, keys)
        return 0 if code == 11 else code


class OrderBeforeTwice(Keys):
    def key_fault(self, key, keys):
        if not is_text(key):
            return 10
        if keys and key < keys[-1]:
            return 11
        return 8 if key in keys else 0


class OrderBeforeText(Keys):
    def key_fault(self, key, keys):
        if keys and key < keys[-1] and key not in keys:
            return 11
        return super().key_fault(key, keys)


class TwiceIsOrder(Keys):
    def key_fault(self, key, keys):
        code = super().key_fault(key, keys)
        return 11 if code == 8 else code


class LastOnly(Keys):
    def key_fault(self, key, keys):
        return super().key_fault(key, keys[-1:])


class FirstOnly(Keys):
    def key_fault(self, key, keys):
        code = super().key_fault(key, keys)
        return 0 if code == 11 and key > keys[0] else code


class StrictLengthFirst(Keys):
    def key_fault(self, key, keys):
        code = super().key_fault(key, [])
        if code or not keys:
            return code
        order = (len(key), key) < (len(keys[-1]), keys[-1])
        return 8 if key in keys else 11 if order else 0


class StrictSignedBytes(Keys):
    def key_fault(self, key, keys):
        code = super().key_fault(key, [])
        if code or not keys:
            return code
        order = SignedBytes().key(key) < SignedBytes().key(keys[-1])
        return 8 if key in keys else 11 if order else 0


class StrictFirstEight(Keys):
    def key_fault(self, key, keys):
        code = super().key_fault(key, keys)
        same = code == 11 and key[:8] == keys[-1][:8]
        return 0 if same else code


class TopOnly(Keys):
    def key_fault(self, key, keys):
        code = super().key_fault(key, keys)
        return 0 if code == 11 and self.level > 1 else code


class NotTop(Keys):
    """A handshake's own dictionary is in any order."""

    def key_fault(self, key, keys):
        code = super().key_fault(key, keys)
        return 0 if code == 11 and self.level == 1 else code


class NotDeepest(Keys):
    def key_fault(self, key, keys):
        code = super().key_fault(key, keys)
        return 0 if code == 11 and self.level == 16 else code


class AtText(Keys):
    def place(self, code, start, key):
        return self.pos - len(key) if code == 11 else start


class AfterValue(Keys):
    """11 only when the value is walked."""

    def dictionary(self, levels):
        self.expect("d")
        keys = []
        while self.peek() != ord("e"):
            start = self.pos
            key = self.string()
            code = self.key_fault(key, keys)
            if code and code != 11:
                raise Fault(code, start)
            keys.append(key)
            self.value(levels)
            if code:
                raise Fault(code, start)
        self.expect("e")


def reader_line(parser):
    """The strict reader whose walk uses another parser."""
    def walked(body, strict):
        made = parser(body, strict)
        try:
            made.value(0)
            if made.pos < len(body):
                raise Fault(payload.TRAILING, made.pos)
        except Fault as fault:
            return fault.code, fault.offset
        return 0, len(body)

    def line(body):
        right, frame.walk = frame.walk, walked
        try:
            return frame.line(b"R", body)
        finally:
            frame.walk = right
    return line


def flat_line(build):
    """A walker's line, of a body and whether the profile is strict."""
    return lambda case: build(*case).line()


def subclasses(kind):
    for each in kind.__subclasses__():
        yield each
        yield from subclasses(each)


def wrong_lines(line, cases):
    return sum(line(body) != text for body, text in cases)


def main():
    missed = 0
    sorting = list(stored("payload_cases", b"o"))
    reading = list(stored("frame_cases", b"R"))
    walking = [((body, operation == b"S"), text) for operation in (b"L", b"S")
               for body, text in stored("payload_cases", operation)]
    assert wrong_lines(Sorter().line, sorting) == 0
    assert wrong_lines(reader_line(Keys), reading) == 0
    assert walking and wrong_lines(flat_line(Flat), walking) == 0
    for title, kind, cases, line_of in (
            ("sorters", Sorter, sorting, lambda build: build().line),
            ("strict readers", Keys, reading, reader_line),
            ("walkers with one loop", Flat, walking, flat_line)):
        print("%s, %d cases" % (title, len(cases)))
        for build in subclasses(kind):
            wrong = wrong_lines(line_of(build), cases)
            missed += not wrong
            print("  %-22s %5d wrong" % (build.__name__, wrong))
    sys.exit(1 if missed else 0)


if __name__ == "__main__":
    main()
