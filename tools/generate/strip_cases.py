"""Makes the stored cases of strip_cases, and their lines. In tools/:

  python3 -B -m generate.strip_cases FOLDER     writes stdin and stdout
  python3 -B -m generate.strip_cases --check    checks the cases

stdin is a sequence of cases: one byte of operation `s`, a length in 4 bytes,
little-endian, and so many bytes of strip. stdout has for each case what
override-desk prints for that strip, by oracle.strip.run, and then one line
with a single full stop. The files are the same on every run: all choices
come from a fixed seed.
"""

import importlib.machinery
import importlib.util
import itertools
import pathlib
import re
import struct
import sys

from generate.chance import Chance
from oracle import strip as strip_oracle

SIZE_LIMIT = 700000
LEAST_CASES = 600
LONGEST_CALL = 479

LARGEST = 2147483647
EDGE_LIMITS = (-1, 0, 1000000, -2, 1000001, -2**31, 2**31 - 1)
EDGE_IDS = (0, 1, LARGEST, LARGEST + 1, 2**32 - 1)
OFF_LIMITS = (-2, 1000001, -2**31, 2**31 - 1)


# Records. They are written as told, sound or not.

def limits(down, up):
    return struct.pack("<Bii", 0, down, up)


def down(limit):
    return struct.pack("<Bi", 1, limit)


def up(limit):
    return struct.pack("<Bi", 2, limit)


def start(number):
    return struct.pack("<BI", 3, number)


def stop(number):
    return struct.pack("<BI", 4, number)


def raising(number):
    return struct.pack("<BI", 5, number)


CLEAR = b"\x06"


def watch(number, mark=1):
    return struct.pack("<BIB", 7, number, mark)


def watches(ids, marks=(1, 0)):
    """Watch records of these IDs, with these marks in turn."""
    return b"".join(map(watch, ids, itertools.cycle(marks)))


HEAD = limits(100, 50)
SAMPLE = (HEAD + watch(3, 1) + watch(8, 0) + raising(8) + down(200) + CLEAR)
SIX = HEAD + watches((11, 12, 14, 27, 301, 1998))
WHOLE = [limits(7, 9), down(200), up(20), start(8), stop(3), raising(8), CLEAR,
         watch(5, 1)]

# Places where a fault may come: what stands before it.
BEFORE = {
    "after limits": HEAD,
    "after a watch record": HEAD + watch(3, 1),
    "after a refusal": HEAD + watches((3, 8)) + CLEAR,
    "after a routine request": HEAD + watches((3, 8)) + stop(3),
    "under an override": HEAD + watches((3, 8)) + raising(8) + down(200),
    "after a clear": SAMPLE,
}


# Faults of strips.

def sample():
    yield SAMPLE


def empty():
    yield b""


def no_limits_first():
    for record in WHOLE[1:] + [b"\x08", b"\x09\x00\x00\x00\x00", b"\xff"]:
        yield record
        yield record + HEAD
        yield record + SAMPLE
    yield SAMPLE[9:]
    yield SAMPLE[1:]


def limits_again():
    for before in BEFORE.values():
        yield before + HEAD
        yield before + HEAD + down(5) + CLEAR
        yield before + limits(-2, -2) + watch(3)
    yield HEAD + HEAD[:1]
    yield HEAD + bytes(20)


def late_watch():
    for call in WHOLE[1:7]:
        yield HEAD + watch(3) + watch(8) + call + watch(9)
        yield HEAD + watch(3) + watch(8) + call + watch(9) + CLEAR
        yield HEAD + call + watch(3)
    yield SAMPLE + watch(3)
    yield SAMPLE + watch(9, 2)
    yield HEAD + watch(3) + down(2000000) + watch(9)


def unknown_kinds():
    for kind in (8, 255):
        for before in BEFORE.values():
            yield before + bytes([kind])
            yield before + bytes([kind, 1, 0, 0, 0]) + CLEAR
    for kind in (9, 16, 48, 55, 64, 127, 128, 131, 134, 254):
        yield HEAD + bytes([kind]) + b"\x01\x00\x00\x00"
        yield SAMPLE + bytes([kind])


def bad_marks():
    for mark in (2, 3, 16, 127, 128, 255):
        yield HEAD + watch(3, mark)
        yield HEAD + watch(3) + watch(8, mark) + raising(3)
        yield HEAD + watch(0, mark) + CLEAR
        yield HEAD + watches(range(1, 33)) + watch(33, mark)
        yield HEAD + watch(3) + raising(3) + watch(8, mark)


def cut_records():
    """Each record cut at each length, in several places."""
    for size in range(1, 9):
        yield HEAD[:size]
    for kind, record in enumerate(WHOLE):
        for size in range(1, len(record)):
            for before in BEFORE.values():
                if kind in (1, 3, 5, 7) or before in (HEAD, SAMPLE):
                    yield before + record[:size]


def faults_and_openings():
    """A refused opening, with a fault before and after the first call."""
    for opening in (HEAD, limits(-2, 50), limits(100, 1000001),
                    HEAD + watch(0), HEAD + watch(3) + watch(3),
                    HEAD + watches(range(1, 34))):
        for fault in (b"\x08", b"\xff", HEAD, watch(9, 2), b"\x01\x05\x00",
                      b"\x05"):
            yield opening + fault
            yield opening + fault + CLEAR
            yield opening + CLEAR + fault
            yield opening + down(5) + stop(3) + fault + up(5)
        yield opening
        yield opening + CLEAR
        yield opening + CLEAR + watch(9)


# Sizes.

def watch_counts():
    for count in (0, 1, 31, 32, 33):
        opening = HEAD + watches(range(1, count + 1))
        for mark in (0, 1):
            yield HEAD + watches(range(1, count + 1), [mark])
        yield opening + CLEAR
        yield opening + start(count) + start(count + 1) + stop(0)
        yield opening + raising(1) + stop(count) + CLEAR
        yield opening + raising(count) + start(1) + CLEAR
        yield opening + b"\x08"
        yield opening + watch(1) + down(5)
    many = HEAD + watches(range(1, 2701))
    yield many
    yield many + raising(1) + CLEAR
    yield HEAD + watches([5]) * 2700 + b"\x07"
    for count in (34, 64, 255, 256, 257, 288):
        yield HEAD + watches(range(1, count + 1)) + raising(1)


def filled(record, size):
    """A strip of this size: six watches, this record again and again."""
    left = size - len(SIX)
    return SIX + record * (left // len(record)) + CLEAR * (left % len(record))


def largest_strips(chance):
    """16,384 bytes and about, and 20,000."""
    longest = strip_oracle.STRIP_LIMIT
    for size in (longest, longest + 1):
        yield filled(up(77), size)
        yield filled(CLEAR, size)
        yield filled(start(27) + raising(14) + stop(27) + CLEAR * 2, size)
    yield filled(down(5), longest - 1)
    yield filled(stop(99), longest - 1) + b"\x01"
    yield filled(raising(5), longest - 1) + b"\xff"
    yield HEAD + watches(range(1, 2730)) + CLEAR
    yield HEAD + watches(range(1, 2730)) + b"\x08"
    yield bytes(longest)
    yield bytes(longest + 1)
    yield chance.text(longest + 1)
    yield filled(CLEAR, longest) + HEAD
    yield filled(up(5), 20000)
    yield bytes(20000)
    yield b"\xff" * 20000


# Openings.

def opening_limits():
    for one, two in itertools.product(EDGE_LIMITS, repeat=2):
        yield limits(one, two)
    for one, two in itertools.product((-1, 0, 1000000), repeat=2):
        yield limits(one, two) + watch(6) + raising(6) + CLEAR
    for limit in OFF_LIMITS:
        yield limits(limit, 50) + watch(6) + raising(6) + CLEAR
        yield limits(100, limit) + watch(6) + raising(6) + CLEAR


def opening_ids():
    for one, two in itertools.product(EDGE_IDS, repeat=2):
        yield HEAD + watch(one) + watch(two, 0)
    for number in EDGE_IDS:
        yield HEAD + watch(number)
        yield HEAD + watch(number) + raising(number) + CLEAR
        yield HEAD + watches(range(1, 32)) + watch(number) + CLEAR


def opening_order():
    """Several refusals at once: 35, 30, then record by record 36, 37."""
    good = (4, 5, 6)
    lists = [good, good + (0,), good + (4,), good + (0, 4), good + (4, 0),
             (0, 0), (0, 4, 4), (4, 4, 0), (4, 0, 4), (4, 5, 5, 4),
             (LARGEST + 1, LARGEST + 1), (7, 7, LARGEST + 1)]
    lists += [tuple(range(1, 33)), tuple(range(1, 32)) + (1,),
              tuple(range(1, 32)) + (0,)]
    for ids in lists:
        for one, two in ((100, 50), (-2, 50), (100, -2), (1000001, -2)):
            yield limits(one, two) + watches(ids)
            padding = tuple(range(100, 133 - len(ids)))
            yield limits(one, two) + watches(ids + padding) + CLEAR
        for one, two in ((100, 50), (-2, 50)):
            padding = tuple(range(100, 132 - len(ids)))
            yield limits(one, two) + watches(ids + padding) + CLEAR


# Calls.

def call_limits():
    for limit in EDGE_LIMITS + (1, 9, 10, 99999, 100000, 999999):
        calls = down(limit) + up(limit)
        yield SIX + calls
        yield SIX + raising(14) + calls + CLEAR
        yield SIX + calls + raising(14) + CLEAR
        yield HEAD + calls
    for limit in OFF_LIMITS:
        yield SIX + down(5) + down(limit) + raising(11) + up(limit) + CLEAR


def call_ids():
    edges = HEAD + watch(1) + watch(LARGEST, 0)
    for number in EDGE_IDS:
        calls = start(number) + stop(number)
        for opening in (edges, SIX, HEAD):
            yield opening + calls
            yield opening + raising(number) + calls + CLEAR
        yield edges + raising(1) + calls + CLEAR
        yield edges + raising(LARGEST) + calls + raising(number) + CLEAR


def unwatched_ids():
    for number in (0, 2, 10, 13, 28, 11 + 256, 11 + 65536, 11 + 2**24,
                   11 + 2**31, 1999, LARGEST):
        calls = start(number) + stop(number)
        yield SIX + calls + raising(number) + CLEAR
        yield SIX + raising(27) + calls + raising(number) + CLEAR
    yield HEAD + start(1) + stop(1) + raising(1) + CLEAR


def second_raises():
    for one, two in itertools.product((11, 27, 1998), (11, 12, 1998, 0, 13)):
        yield SIX + raising(one) + raising(two) + CLEAR
        yield SIX + raising(one) + raising(two) + start(two) + CLEAR + CLEAR


def clears_with_none():
    yield HEAD + CLEAR
    yield HEAD + CLEAR * 3
    yield SIX + CLEAR
    yield SIX + CLEAR + down(5) + CLEAR
    yield SIX + raising(11) + CLEAR + CLEAR
    yield SIX + raising(13) + CLEAR
    yield SIX + CLEAR + raising(11) + CLEAR + stop(11) + CLEAR


def held_requests():
    """Requests under an override, and what the clear makes of them."""
    requests = [down(200), up(20), start(14), stop(11), start(11), stop(12),
                start(301), down(-1), up(0)]
    for one, two in itertools.combinations(requests, 2):
        yield SIX + raising(27) + one + two + CLEAR
    yield SIX + raising(27) + b"".join(requests) + CLEAR
    yield SIX + b"".join(requests) + raising(27) + CLEAR
    every = (11, 12, 14, 27, 301, 1998)
    for change in (start, stop):
        yield SIX + raising(12) + b"".join(map(change, every)) + CLEAR
        yield SIX + b"".join(map(change, every)) + raising(12) + CLEAR
    yield SIX + raising(27) + b"".join(requests)


def own_id():
    """Starts and stops of the override's own ID while it stands."""
    for number in (11, 12, 301, 1998):
        opening = SIX + raising(number)
        for calls in (start(number), stop(number), start(number) * 2,
                      stop(number) + start(number),
                      start(number) + stop(number)):
            yield opening + calls + CLEAR
            yield opening + calls + CLEAR + raising(number) + CLEAR
    for mark in (0, 1):
        alone = HEAD + watch(9, mark)
        for calls in (b"", start(9), stop(9)):
            yield alone + calls + raising(9) + CLEAR
            yield alone + raising(9) + calls + CLEAR


def several_raises():
    for first, second in itertools.permutations((11, 14, 1998), 2):
        yield (SIX + raising(first) + down(5) + stop(first) + CLEAR
               + raising(second) + up(6) + start(14) + CLEAR)
        yield (SIX + (raising(first) + CLEAR + raising(second) + CLEAR) * 4)
        yield (SIX + raising(first) + stop(second) + raising(second) + CLEAR
               + down(1) + raising(second) + start(second) + CLEAR + up(1))


def nothing_changes():
    """Requests for what already is so still write their frame."""
    yield SIX + down(100) + up(50) + start(11) + stop(12) + start(11)
    yield SIX + raising(11) + down(100) + up(50) + start(11) + CLEAR
    yield SIX + down(7) * 3 + stop(301) * 3


def list_lengths():
    """IDs of all lengths, and lists of all sizes."""
    edges = sorted({10**n + step for n in range(1, 10) for step in (-1, 0)})
    yield HEAD + watches(edges) + raising(edges[4]) + CLEAR
    for number in edges:
        yield HEAD + watch(number) + stop(number) + raising(number) + CLEAR
    for count in range(1, 33):
        ids = range(8, 8 + count)
        yield HEAD + watches(ids) + raising(8) + CLEAR
        yield HEAD + watches(reversed(ids), [1]) + raising(8) + CLEAR
        long = range(LARGEST - count + 1, LARGEST + 1)
        yield HEAD + watches(long, [0]) + raising(LARGEST) + CLEAR
    for number in range(1, 33):
        yield SIX[:9] + watches(range(1, 33)) + raising(number) + CLEAR


def longest_calls():
    """The clear of 479 bytes, the longest raise, and their neighbours."""
    ids = list(range(LARGEST - 31, LARGEST + 1))
    most = limits(1000000, 1000000)
    for marks in ([1, 0], [0, 1], [0], [1], [1] + [0] * 31, [0] + [1] * 31):
        for order in (ids, ids[::-1]):
            for number in (ids[0], ids[15], LARGEST):
                opening = most + watches(order, marks)
                yield opening + raising(number) + CLEAR
    yield limits(-1, 0) + watches(ids) + raising(LARGEST) + CLEAR
    yield (limits(-1, 0) + watches(ids) + raising(LARGEST)
           + down(1000000) + up(1000000) + CLEAR)
    shorter = [999999999] + ids[1:]
    yield most + watches(shorter) + raising(LARGEST) + CLEAR


# Random strips.

def random_ids(chance, count):
    """So many IDs, all different: small, near the largest, or any length."""
    range_of_ids = chance.pick(("small", "small", "near", "any", "lengths"))
    ids = []
    while len(ids) < count:
        number = {
            "small": 1 + chance.below(40),
            "near": LARGEST - chance.below(1000),
            "any": 1 + chance.below(LARGEST),
            "lengths": 1 + chance.below(10 ** (2 + chance.below(8))),
        }[range_of_ids]
        if number not in ids:
            ids.append(number)
    return ids


def random_limit(chance):
    if chance.below(8) == 0:
        return chance.pick(EDGE_LIMITS)
    return chance.below(10 ** (1 + chance.below(6)))


def random_call(chance, ids):
    kind = chance.below(10)
    if kind < 2:
        return (down, up)[kind](random_limit(chance))
    if kind == 2:
        return CLEAR
    number = chance.pick(ids) if ids else 1
    if chance.below(12) == 0:
        number = chance.pick((number + 1, 1 + chance.below(40),
                              chance.pick(EDGE_IDS)))
    make = chance.pick((start, start, start, stop, stop, stop, raising))
    return make(number)


def random_strip(chance, most_calls):
    count = chance.pick((0, 1, 2, 3, 4, 5, 6, 8, 12, 20, 31, 32, 32))
    ids = random_ids(chance, count)
    marks = [chance.below(2) for _ in range(33)]
    calls = [random_call(chance, ids)
             for _ in range(1 + chance.below(most_calls))]
    return (limits(chance.below(1000001), chance.below(1000002) - 1)
            + watches(ids, marks) + b"".join(calls))


def random_sound(chance):
    for most_calls in (5, 20, 60, 200):
        for _ in range(45):
            yield random_strip(chance, most_calls)
    for _ in range(20):
        yield random_strip(chance, 1)


def mutated(chance, strip):
    """A strip with one byte changed, lost, doubled or put in."""
    at = chance.below(len(strip))
    byte = bytes([chance.pick((chance.below(9), chance.below(256)))])
    return chance.pick((
        strip[:at] + byte + strip[at + 1:], strip[:at] + strip[at + 1:],
        strip[:at] + strip[at:at + 1] + strip[at:],
        strip[:at] + byte + strip[at:]))


def random_mutations(chance):
    for _ in range(160):
        strip = random_strip(chance, 25)
        for _ in range(1 + chance.below(3)):
            strip = mutated(chance, strip)
        yield strip
    for strip in (SAMPLE, SIX + raising(27) + stop(11) + CLEAR):
        for _ in range(60):
            yield mutated(chance, strip)


def random_cuts(chance):
    for size in range(len(SAMPLE)):
        yield SAMPLE[:size]
    for _ in range(100):
        strip = random_strip(chance, 25)
        yield strip[:chance.below(len(strip))]


def random_bytes(chance):
    for _ in range(40):
        yield chance.text(1 + chance.below(60))
        yield HEAD + chance.text(1 + chance.below(40))
        yield SIX + bytes(chance.below(9) for _ in range(chance.below(60)))


def groups():
    """All strips by group; a strip stays only where it comes first."""
    chance = Chance(0x9E3779B97F4A7C15)
    plain = (
        sample, empty, no_limits_first, limits_again, late_watch,
        unknown_kinds, bad_marks, cut_records, faults_and_openings,
        watch_counts, opening_limits, opening_ids, opening_order, call_limits,
        call_ids, unwatched_ids, second_raises, clears_with_none,
        held_requests, own_id, several_raises, nothing_changes, list_lengths,
        longest_calls)
    chosen = (largest_strips, random_sound, random_mutations, random_cuts,
              random_bytes)
    made = [(group.__name__, group()) for group in plain]
    made += [(group.__name__, group(chance)) for group in chosen]
    seen, result = set(), {}
    for name, strips in made:
        fresh = [s for s in dict.fromkeys(strips) if s not in seen]
        seen.update(fresh)
        result[name] = fresh
    return result


# The files.

def case(strip):
    return b"s" + struct.pack("<I", len(strip)) + strip


def write_files(folder):
    strips = list(itertools.chain(*groups().values()))
    cases = b"".join(map(case, strips))
    printed = b"".join(strip_oracle.run(s) + b".\n" for s in strips)
    assert len(strips) >= LEAST_CASES and len(cases) < SIZE_LIMIT
    (folder / "stdin").write_bytes(cases)
    (folder / "stdout").write_bytes(printed)
    print(len(strips), "cases; bytes:", len(cases), len(printed))


# The check.

OPENING_CODES = {0, 30, 35, 36, 37}
CALL_CODES = {0, 1, 30, 31, 32, 33}
FRAME = re.compile(r"([0-9A-F]{8})(l\d+:(downlimit|uplimit|start|stop)"
                   r"(?:i(-?\d+)e|l((?:i\d+e)+)e)e)")


def strip_tool():
    """The program tools/strip as a module."""
    path = pathlib.Path(__file__).resolve().parents[1] / "strip"
    loader = importlib.machinery.SourceFileLoader("strip_tool", str(path))
    spec = importlib.util.spec_from_loader("strip_tool", loader)
    module = importlib.util.module_from_spec(spec)
    loader.exec_module(module)
    return module


def round_trip(tool, strip):
    """Decodes and encodes a sound strip; gives its text, or None."""
    fault = strip_oracle.split(strip)[1]
    try:
        text = tool.decode(strip)
    except tool.Fault as told:
        assert str(told).startswith(f"byte {fault}: "), (strip, told, fault)
        return None
    assert fault is None, (strip, fault)
    assert tool.encode(text) == strip, strip
    assert tool.encode(text, loose=True) == strip, strip
    return text


class Machine:
    """A plain machine of demand 3: two limits and a set of running IDs."""

    def __init__(self, limits_opened_with, running):
        self.limits = dict(zip(("down", "up"), limits_opened_with))
        self.running = set(running)

    def take(self, name, values):
        if name in self.limits:
            self.limits[name] = values[0]
        elif name == "start":
            self.running.update(values)
        else:
            self.running.difference_update(values)

    def state(self):
        return self.limits, self.running


def take_frames(daemon, text):
    """Lets the daemon take joined frames; nothing may stand between."""
    place = 0
    while place < len(text):
        found = FRAME.match(text, place)
        assert found, text
        length, payload, key, limit, ids = found.groups()
        assert int(length, 16) == len(payload), text
        assert payload.startswith(f"l{len(key)}:{key}"), text
        values = [limit] if limit else re.findall(r"\d+", ids)
        daemon.take(key.removesuffix("limit"), [int(v) for v in values])
        place = found.end()


def check_calls(text, printed):
    """Demand 3, for the text of a sound strip and what is printed for it."""
    records = [line.split() for line in text.splitlines()]
    running = {int(r[1]) for r in records if r[-1] == "running"}
    opened = [int(word) for word in records[0][1:]]
    daemon, alone = Machine(opened, running), Machine(opened, running)
    override = None
    calls = [r for r in records if r[0] not in ("limits", "watch")]
    lines = iter(printed.splitlines()[1:])
    for name, *words in calls:
        _, answer, count = map(int, next(lines).split())
        if count:
            frames = next(lines)
            assert len(frames) == count <= LONGEST_CALL and answer == 0
            take_frames(daemon, frames)
        if name == "raise" and answer == 0:
            override = int(words[0])
        elif name == "clear" and answer == 0:
            override = None
        elif answer in (0, 1):
            alone.take(name, [int(words[0])])
        if override is None:
            assert daemon.state() == alone.state(), text
        else:
            assert daemon.state() == ({"down": -1, "up": -1}, {override}), text
    assert next(lines, None) is None, text


def count_codes(printed, codes):
    """Counts the openings, calls and strip faults in what is printed."""
    for line in printed.splitlines():
        words = line.split()
        if words[0] in ("open", "strip"):
            name = line if words[0] == "open" else "strip fault"
        elif len(words) == 3:
            name = f"call {words[1]}"
            codes["longest"] = max(codes.get("longest", 0), int(words[2]))
        else:
            continue
        codes[name] = codes.get(name, 0) + 1


def check():
    tool, codes, sound, replayed, size = strip_tool(), {}, 0, 0, 0
    for name, strips in groups().items():
        print(f"{len(strips):5} {name}")
        for strip in strips:
            printed = strip_oracle.run(strip).decode()
            count_codes(printed, codes)
            text = round_trip(tool, strip)
            sound += text is not None
            size += len(case(strip))
            if text is not None and printed.startswith("open 0\n"):
                check_calls(text, printed)
                replayed += 1
    assert size < SIZE_LIMIT
    assert codes["longest"] == LONGEST_CALL
    assert {f"open {code}" for code in OPENING_CODES} == {
        name for name in codes if name.startswith("open")}
    assert {f"call {code}" for code in CALL_CODES} == {
        name for name in codes if name.startswith("call")}
    print(f"{size} bytes of cases; {sound} sound strips there and back;"
          f" demand 3 holds in {replayed}")
    for name in sorted(codes):
        print(f"{codes[name]:7} {name}")


def main():
    if sys.argv[1:] == ["--check"]:
        check()
    elif len(sys.argv) == 2:
        write_files(pathlib.Path(sys.argv[1]))
    else:
        sys.exit(__doc__.strip())


if __name__ == "__main__":
    main()
