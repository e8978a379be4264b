"""Choices for the generators of cases: the same on every run."""


class Chance:
    """A xorshift generator, so that no Python version changes the files."""

    def __init__(self, seed):
        self.state = seed

    def below(self, n):
        x = self.state
        x ^= x << 13 & 2**64 - 1
        x ^= x >> 7
        x ^= x << 17 & 2**64 - 1
        self.state = x
        return x % n

    def pick(self, items):
        return items[self.below(len(items))]

    def shuffled(self, items):
        left = list(items)
        return [left.pop(self.below(len(left))) for _ in items]

    def text(self, size):
        return bytes(self.below(256) for _ in range(size))
