"""Encoders of bencoding, and random payloads, for the generators of cases."""


# Encoders. They write what they are told, in that order, sound or not.

def integer(n):
    return b"i%de" % n


def string(text):
    return b"%d:%s" % (len(text), text)


def listing(*values):
    return b"l" + b"".join(values) + b"e"


def dictionary(*pairs):
    return b"d" + b"".join(string(k) + v for k, v in pairs) + b"e"


def nested(kinds, core):
    """core inside a list for each l of kinds and a dictionary for each d."""
    for kind in reversed(kinds):
        core = listing(core) if kind == "l" else dictionary((b"k", core))
    return core


# Random payloads.

REPLACEMENTS = [bytes([b]) for b in b"019-:deilx\x00\xff"]


def random_value(chance, room):
    """A value that is sound in the loose profile, unless a key is no text;
    room bounds its size."""
    kind = chance.below(7)
    if kind < 2 or room < 2:
        size = 10 ** chance.below(19)
        return integer(chance.below(2 * size + 1) - size)
    if kind < 4:
        return string(random_text(chance, 5))
    count = chance.below(min(room, 4) + 1)
    inner = [random_value(chance, room // 2 + 1) for _ in range(count)]
    if kind == 4:
        return listing(*inner)
    keys = list(dict.fromkeys(random_text(chance, 3) for _ in range(count)))
    return dictionary(*zip(sorted(keys) if chance.below(4) else keys, inner))


def random_text(chance, longest):
    letters = b"ab" if chance.below(3) else b"\x00\x7f\x80\xffei0:"
    return bytes(chance.pick(letters)
                 for _ in range(chance.below(longest + 1)))


def mutated(chance, payload):
    at = chance.below(len(payload))
    to = at + 1 + chance.below(min(6, len(payload) - at))
    byte = (chance.pick(REPLACEMENTS) if chance.below(4)
            else bytes([chance.below(256)]))
    return chance.pick([
        payload[:at] + byte + payload[at + 1:],
        payload[:at] + byte + payload[at:],
        payload[:at] + payload[at + 1:],
        payload[:at],
        payload[:at] + payload[to:],
        payload[:to] + payload[at:],
        payload[:at] + payload[at:to][::-1] + payload[to:],
        payload[:at] + random_value(chance, 3) + payload[to:],
    ])
