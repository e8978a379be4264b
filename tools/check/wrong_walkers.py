"""A walker with one loop and a row of levels, and wrong ones, each with one
mistake: part of wrong_builds."""

from oracle.payload import Fault, Parser, is_text


class Level:
    """A list or dictionary that is open, and its keys so far."""

    def __init__(self, mark, keys=()):
        self.mark = mark
        self.keys = set(keys)
        self.greatest = max(keys, default=None)


class Flat:
    """A right one, in parts that a wrong one changes. level is the innermost
    level, row the outer ones; valued says that a value has to stand next."""

    limit = 16

    def __init__(self, body, strict):
        self.parser = Parser(body, strict)
        self.strict = strict
        self.row = []
        self.level = Level("")
        self.valued = True

    def open(self, mark):
        self.row.append(self.level)
        self.level = Level(mark)
        self.valued = False

    def close(self):
        self.level = self.row.pop()

    def key_fault(self, key):
        level = self.level
        if not is_text(key):
            return 10
        if key in level.keys:
            return 8
        low = level.greatest is not None and key < level.greatest
        return 11 if self.strict and low else 0

    def keep(self, key):
        self.level.keys.add(key)
        self.level.greatest = max(self.level.greatest or b"", key)

    def key(self):
        start = self.parser.pos
        key = self.parser.string()
        code = self.key_fault(key)
        if code:
            raise Fault(code, start)
        self.keep(key)
        self.valued = True

    def too_deep(self, mark):
        return len(self.row) == self.limit

    def value(self):
        mark = chr(self.parser.peek())
        if mark in "ld":
            if self.too_deep(mark):
                raise Fault(7, self.parser.pos)
            self.parser.pos += 1
            self.open(mark)
        else:
            self.scalar(mark)
            self.valued = False

    def scalar(self, mark):
        if mark == "i":
            self.parser.integer()
        else:
            self.parser.string()

    def closes(self):
        return not self.valued and self.parser.peek() == ord("e")

    def token(self):
        if self.closes():
            self.parser.pos += 1
            self.close()
        elif not self.valued and self.level.mark == "d":
            self.key()
        else:
            self.value()

    def end(self):
        if self.parser.pos < len(self.parser.payload):
            raise Fault(9, self.parser.pos)

    def line(self):
        try:
            while self.valued or self.row:
                self.token()
            self.end()
        except Fault as fault:
            return "%d %d" % (fault.code, fault.offset)
        return "0 %d" % self.parser.pos


# The row.

class OuterKeysLost(Flat):
    def open(self, mark):
        super().open(mark)
        self.row[-1] = Level(self.row[-1].mark)


class OuterGreatestLost(Flat):
    def open(self, mark):
        super().open(mark)
        self.row[-1].greatest = None


class OuterMarkLost(Flat):
    """An outer level gets the kind of the inner one."""

    def open(self, mark):
        super().open(mark)
        self.row[-1].mark = mark


class RowOfEight(Flat):
    """The ninth level is kept where the first one is, and so on."""

    def open(self, mark):
        super().open(mark)
        if len(self.row) > 8:
            self.row[-9] = self.row[-1]


class RowOfFifteen(Flat):
    """What is outside of the sixteenth level is not kept."""

    def close(self):
        lost = len(self.row) == 16
        super().close()
        if lost:
            self.level = Level(self.level.mark)


class InnerKeysKept(Flat):
    """At a close the outer level goes on with the inner one's keys."""

    def close(self):
        inner = self.level
        super().close()
        self.level = Level(self.level.mark, inner.keys)


class KeysJoined(Flat):
    """At a close the outer level gets the inner one's keys too."""

    def close(self):
        inner = self.level
        super().close()
        self.level = Level(self.level.mark, self.level.keys | inner.keys)


class KeysTakenAlong(Flat):
    """A level that is opened starts with the keys of the outer one."""

    def open(self, mark):
        outer = self.level
        super().open(mark)
        self.level = Level(mark, outer.keys)


class KeysOfSibling(Flat):
    """A level that is opened starts with the keys of the one before it."""

    before = ()

    def open(self, mark):
        super().open(mark)
        self.level = Level(mark, self.before)
        self.before = ()

    def close(self):
        self.before = self.level.keys
        super().close()


class LevelStays(Flat):
    """A level is not taken off at a close."""

    def close(self):
        self.level = self.row[-1]


class LevelStaysInDictionary(Flat):
    """An inner level of a dictionary is not taken off at its close."""

    def close(self):
        self.level = self.row[-1]
        if self.level.mark != "d" or len(self.row) < 3:
            self.row.pop()


class TwoLevelsOff(Flat):
    def close(self):
        super().close()
        if self.row and self.level.mark == "l":
            super().close()


# Kinds and depth.

class DictionaryAsList(Flat):
    def open(self, mark):
        super().open("l")


class ListAsDictionary(Flat):
    def open(self, mark):
        super().open("d")


class KindOfOutermost(Flat):
    """Inside the second level all is of the first one's kind."""

    def open(self, mark):
        super().open(self.row[1].mark if len(self.row) > 1 else mark)


class Seventeen(Flat):
    limit = 17


class Fifteen(Flat):
    limit = 15


class DictionariesNotCounted(Flat):
    def too_deep(self, mark):
        return mark == "l" and super().too_deep(mark)


class NeverCountedDown(Flat):
    """Counts the levels that were opened, not those that are open."""

    opened = 0

    def too_deep(self, mark):
        self.opened += 1
        return self.opened > self.limit


# Where a value has to stand.

class CloseForValue(Flat):
    """`e` is taken where the value of an entry has to stand."""

    def closes(self):
        return (not self.valued or self.row) and self.parser.peek() == ord("e")

    def close(self):
        super().close()
        self.valued = False


class CloseAfterClose(CloseForValue):
    """The same once a nested value was closed."""

    nested = False

    def closes(self):
        if self.valued and not self.nested:
            return False
        return super().closes()

    def close(self):
        super().close()
        self.nested = True


class ValuedAfterClose(Flat):
    def close(self):
        super().close()
        self.valued = bool(self.row)


class ValuedAfterOpen(Flat):
    def open(self, mark):
        super().open(mark)
        self.valued = True


class ValueAfterValue(Flat):
    """In a dictionary a value may follow a value."""

    def scalar(self, mark):
        super().scalar(mark)
        if self.parser.payload[self.parser.pos:][:1] in (b"i", b"l"):
            self.level = Level("l", self.level.keys)


class NoValueNeeded(Flat):
    def key(self):
        super().key()
        self.valued = False


class NothingAfter(Flat):
    """Ends with the outermost close and looks at nothing after it."""

    def end(self):
        self.parser.pos = len(self.parser.payload)


# Keys.

class GreatestStays(Flat):
    """The first key stays the one that others are held against."""

    def keep(self, key):
        first = self.level.greatest
        super().keep(key)
        self.level.greatest = key if first is None else first


class GreatestIsLast(Flat):
    """Repeated keys are looked for only where a key is not above the last
    one, as if that were the greatest."""

    def key_fault(self, key):
        code = super().key_fault(key)
        last = self.level.greatest
        return 0 if code == 8 and key > last else code

    def keep(self, key):
        super().keep(key)
        self.level.greatest = key


class UncheckedAfterClose(Flat):
    """The key after a nested value is not held against earlier ones."""

    nested = False

    def close(self):
        super().close()
        self.nested = True

    def key_fault(self, key):
        code, nested = super().key_fault(key), self.nested
        self.nested = False
        return 0 if nested and code in (8, 11) else code


class LastOnly(Flat):
    """A key is held against the one before it alone."""

    def keep(self, key):
        self.level.keys = {key}
        self.level.greatest = key


class OneLevelUnchecked(Flat):
    """Keys of the sixteenth level are taken as they come."""

    def key_fault(self, key):
        return 0 if len(self.row) == 16 else super().key_fault(key)


class OrderBeforeTwice(Flat):
    def key_fault(self, key):
        code = super().key_fault(key)
        low = code == 8 and self.strict and key < self.level.greatest
        return 11 if low else code


class AlwaysLoose(Flat):
    def __init__(self, body, strict):
        super().__init__(body, False)


class AlwaysStrict(Flat):
    def __init__(self, body, strict):
        super().__init__(body, True)


class StrictOutermost(Flat):
    """The profile counts for the first level alone."""

    def key_fault(self, key):
        code = super().key_fault(key)
        return 0 if code == 11 and len(self.row) > 1 else code
