"""What the program override-desk prints for a strip.

An independent model, written from document 01 alone: it shares nothing with
the library. `run` takes any bytes. From a shell, in tools/:

  python3 -B -m oracle.strip < strip
"""

import struct
import sys

STRIP_LIMIT = 16384
WATCH_LIMIT = 32
LARGEST_ID = 2147483647
LARGEST_LIMIT = 1000000

LIMITS, DOWN, UP, START, STOP, RAISE, CLEAR, WATCH = range(8)
CALLS = (DOWN, UP, START, STOP, RAISE, CLEAR)
BODIES = ["<ii", "<i", "<i", "<I", "<I", "<I", "<", "<IB"]


# The strip.

def record_at(strip, place):
    """Kind and numbers of a whole record, or None where there is none."""
    kind = strip[place]
    if kind >= len(BODIES):
        return None
    if place + 1 + struct.calcsize(BODIES[kind]) > len(strip):
        return None
    values = struct.unpack_from(BODIES[kind], strip, place + 1)
    if kind == WATCH and values[1] > 1:
        return None
    return kind, values


def stands_right(kind, records):
    """Whether a record of a kind may follow these records."""
    if kind == LIMITS or not records:
        return kind == LIMITS and not records
    return kind != WATCH or records[-1][0] in (LIMITS, WATCH)


def split(strip):
    """The records before the first fault, and the fault's place or None."""
    if len(strip) > STRIP_LIMIT:
        return [], STRIP_LIMIT
    records, place = [], 0
    while place < len(strip):
        record = record_at(strip, place)
        if record is None or not stands_right(record[0], records):
            return records, place
        records.append(record)
        place += 1 + struct.calcsize(BODIES[record[0]])
    return records, None if records else 0


# Frames.

def frame(key, value):
    payload = "l%d:%s%se" % (len(key), key, value)
    return "%08X%s" % (len(payload), payload)


def limit_frame(key, limit):
    return frame(key, "i%de" % limit)


def list_frame(key, ids):
    """A frame with a list of IDs; nothing if there is none."""
    if not ids:
        return ""
    return frame(key, "l%se" % "".join("i%de" % number for number in ids))


# The desk.

def limit_fits(limit):
    return -1 <= limit <= LARGEST_LIMIT


def opening_answer(down, up, watch):
    if len(watch) > WATCH_LIMIT:
        return 35
    if not limit_fits(down) or not limit_fits(up):
        return 30
    earlier = set()
    for number, _ in watch:
        if not 1 <= number <= LARGEST_ID:
            return 36
        if number in earlier:
            return 37
        earlier.add(number)
    return 0


class Desk:
    """What is wanted, and the override's ID. Calls give answer and frames."""

    def __init__(self, down, up, watch):
        self.limits = {DOWN: down, UP: up}
        self.marks = dict(watch)
        self.override = 0

    def call(self, kind, values):
        if kind in (DOWN, UP):
            return self.set_limit(kind, *values)
        if kind in (START, STOP):
            return self.set_mark(kind, *values)
        if kind == RAISE:
            return self.raise_override(*values)
        return self.clear_override()

    def routine(self, text):
        """The answer to an accepted routine request: written or held."""
        return (1, "") if self.override else (0, text)

    def set_limit(self, kind, limit):
        if not limit_fits(limit):
            return 30, ""
        self.limits[kind] = limit
        key = "downlimit" if kind == DOWN else "uplimit"
        return self.routine(limit_frame(key, limit))

    def set_mark(self, kind, number):
        if number not in self.marks:
            return 31, ""
        self.marks[number] = 1 if kind == START else 0
        key = "start" if kind == START else "stop"
        return self.routine(list_frame(key, [number]))

    def raise_override(self, number):
        if self.override:
            return 32, ""
        if number not in self.marks:
            return 31, ""
        self.override = number
        others = [other for other in self.marks if other != number]
        return 0, (limit_frame("downlimit", -1) + limit_frame("uplimit", -1)
                   + list_frame("stop", others)
                   + list_frame("start", [number]))

    def clear_override(self):
        if not self.override:
            return 33, ""
        self.override = 0
        return 0, (limit_frame("downlimit", self.limits[DOWN])
                   + limit_frame("uplimit", self.limits[UP])
                   + list_frame("stop", self.marked(0))
                   + list_frame("start", self.marked(1)))

    def marked(self, mark):
        return [number for number, its in self.marks.items() if its == mark]


# The program.

def call_lines(desk, calls):
    for kind, values in calls:
        answer, text = desk.call(kind, values)
        yield f"{kind} {answer} {len(text)}"
        if text:
            yield text


def lines(strip):
    records, fault = split(strip)
    calls = [record for record in records if record[0] in CALLS]
    if calls or fault is None:
        down, up = records[0][1]
        watch = [values for kind, values in records if kind == WATCH]
        answer = opening_answer(down, up, watch)
        yield f"open {answer}"
        if answer != 0:
            return
        yield from call_lines(Desk(down, up, watch), calls)
    if fault is not None:
        yield f"strip fault {fault}"


def run(strip):
    """All that override-desk prints for a strip."""
    return "".join(line + "\n" for line in lines(strip)).encode("ascii")


if __name__ == "__main__":
    sys.stdout.buffer.write(run(sys.stdin.buffer.read()))
