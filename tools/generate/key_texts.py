"""Texts for keys: at the borders of UTF-8, with a zero byte, and random ones.

The oracle says which of them may be keys; as other strings all are free.
"""

from oracle.payload import CHARACTERS, is_text


def borders():
    """The first and last character of each row of RFC 3629, each one's cuts,
    and each with one byte below or above its range."""
    for ranges in CHARACTERS:
        for character in (bytes(low for low, _ in ranges),
                          bytes(high for _, high in ranges)):
            yield character
            for size in range(1, len(character)):
                yield character[:size]
            for at, (low, high) in enumerate(ranges):
                for byte in (low - 1, high + 1):
                    if 0 <= byte <= 255:
                        yield (character[:at] + bytes([byte])
                               + character[at + 1:])


NAMED = [
    # Zero bytes.
    b"\x00", b"\x00a", b"a\x00b", b"a\x00", b"\x00\x00", b"\xc3\xa4\x00",
    b"\x00\xc3\xa4", b"\xc3\x00\xa4",
    # Overlong forms, the longest and the shortest.
    b"\xc0\x80", b"\xc0\xaf", b"\xc1\xbf", b"\xe0\x80\x80", b"\xe0\x9f\xbf",
    b"\xf0\x80\x80\x80", b"\xf0\x8f\xbf\xbf", b"\xf8\x88\x80\x80\x80",
    b"\xfc\x84\x80\x80\x80\x80",
    # Surrogates, a pair of them too, and what stands about them.
    b"\xed\xa0\x80", b"\xed\xbf\xbf", b"\xed\xa0\xbd\xed\xb8\x80",
    b"\xed\x9f\xbf", b"\xee\x80\x80",
    # Above 10FFFF, and bytes that start no character.
    b"\xf4\x90\x80\x80", b"\xf5\x80\x80\x80", b"\xf7\xbf\xbf\xbf", b"\xf5",
    b"\xf8", b"\xfe", b"\xff", b"\xff\xfe", b"\xfe\xff", b"\x80", b"\xbf",
    b"\x80\x80", b"a\x80", b"\xa4\xc3",
    # A character after or before a cut one.
    b"\xc3a", b"\xc3\xc3\xa4", b"\xe2\x82a", b"\xe2\x82\xc3\xa4",
    b"\xf0\x9f\x98a", b"\xf0\x9f\x98\xf0\x9f\x98\x80", b"a\xc3",
    b"\xc3\xa4\xc3",
    # Legal: nothing, the byte order mark, noncharacters, the last one.
    b"", b"\xef\xbb\xbf", b"\xef\xbb\xbfid", b"\xef\xbf\xbe", b"\xef\xbf\xbf",
    b"\xef\xb7\x90", b"\xef\xb7\xaf", b"\xf0\x9f\xbf\xbe", b"\xf4\x8f\xbf\xbe",
    b"\xf4\x8f\xbf\xbf", b"\xef\xbf\xbd",
    # Legal: two forms of one letter, and words.
    b"\xc3\xa4", b"a\xcc\x88", b"na\xc3\xafve", "größe".encode(),
    "名前".encode(), "имя".encode(), b"\xf0\x9f\x98\x80", b"\x01", b"\x1f",
    b"\x7f", b"id", b"\r\n",
]

KEY_TEXTS = list(dict.fromkeys([*NAMED, *borders()]))

# A few of each kind.
CHOSEN = [
    b"", b"a", b"\x01", b"\x7f", b"\xc2\x80", b"\xdf\xbf", b"\xe0\xa0\x80",
    b"\xed\x9f\xbf", b"\xef\xbb\xbf", b"\xef\xbf\xbf", b"\xf0\x90\x80\x80",
    b"\xf4\x8f\xbf\xbf",
    b"\x00", b"a\x00b", b"\x80", b"\xff", b"\xc0\x80", b"\xc3",
    b"\xe0\x9f\xbf", b"\xed\xa0\x80", b"\xe2\x82", b"\xf0\x8f\xbf\xbf",
    b"\xf4\x90\x80\x80", b"\xf0\x9f\x98", b"\xc3\xa4\xff",
]
NO_KEYS = [text for text in CHOSEN if not is_text(text)]

# Characters and ill-formed parts that stand between runs of ASCII.
MIDDLES = [
    b"\xc3\xa4", b"\xc3", b"\xe2\x82\xac", b"\xe2\x82", b"\xf0\x9f\x98\x80",
    b"\xf0\x9f\x98", b"\xef\xbb\xbf", b"\xed\xa0\x80", b"\x7f", b"\x00",
    b"\xc0\x80", b"\xff",
]


def run(size):
    """So many letters, in their order again and again."""
    return bytes(ord("a") + n % 26 for n in range(size))


def random_key(chance):
    """Up to five characters or runs of ASCII."""
    key = b""
    for _ in range(chance.below(6)):
        ranges = chance.pick(CHARACTERS)
        character = bytes(low + chance.below(high - low + 1)
                          for low, high in ranges)
        key += run(chance.below(9)) if len(ranges) == 1 else character
    return key


def damaged(chance, key):
    """The key with a byte lost, changed or put in, or cut at either end."""
    at = chance.below(len(key) + 1)
    byte = bytes([chance.pick((0, 0x7F, 0x80, 0xBF, 0xC3, 0xED, 0xF4, 0xFF))])
    return chance.pick([
        key[:at] + key[at + 1:], key[:at] + byte + key[at + 1:],
        key[:at] + byte + key[at:], key[at:], key[:at]])
