"""Compares payload acceptance of oracle.payload with two Debian packages.

Run by bencode.sh. Takes the payloads of generate.payload_cases, prints a
count for each kind of difference, and fails if one has no known reason.
The reasons are in docs/BENCODE-COMPARISON.md.
"""

import collections
import pathlib
import re
import struct
import subprocess
import sys

import fastbencode

from generate.payload_cases import all_cases
from oracle.payload import walk

HELPER = pathlib.Path(__file__).with_name("bencode.pl")
MODES = ("Bencode lenient", "Bencode normal", "fastbencode")

# Reasons for a payload that only the package accepts, by the oracle's code.
ACCEPTED = {5: "length of a string over 32 bits wraps round",
            6: "integer outside the range", 7: "17th level",
            10: "key that is no text"}
REFUSED = "keys not rising"


def perl_answers(payloads):
    """For each payload, whether the Perl module accepts it in both modes."""
    stream = b"".join(struct.pack("<I", len(p)) + p for p in payloads)
    run = subprocess.run(["/usr/bin/perl", str(HELPER)], input=stream,
                         stdout=subprocess.PIPE, check=True)
    answers = [[word == b"1" for word in line.split()]
               for line in run.stdout.splitlines()]
    assert len(answers) == len(payloads)
    return answers


def fastbencode_accepts(payload):
    try:
        fastbencode.bdecode(payload)
    except (ValueError, OverflowError):
        return False
    return True


def reason(mode, payload, code):
    """Why the package's answer differs from this code, or None."""
    if code == 0:
        strict = mode != MODES[0] and walk(payload, True)[0] == 11
        return REFUSED if strict else None
    if code == 5 and not (mode == MODES[2]
                          and re.search(rb"[0-9]{10,}:", payload)):
        return None
    if code == 7 and mode == MODES[0]:
        return None
    return ACCEPTED.get(code)


def main():
    payloads = list(dict.fromkeys(payload for _, payload in all_cases()))
    counts, unknown = collections.Counter(), 0
    for payload, perl in zip(payloads, perl_answers(payloads)):
        code = walk(payload, False)[0]
        answers = zip(MODES, perl + [fastbencode_accepts(payload)])
        for mode, accepted in answers:
            if accepted == (code == 0):
                counts[mode, "same", "both accept" if accepted
                       else "both refuse"] += 1
                continue
            why = reason(mode, payload, code)
            unknown += why is None
            side = "package accepts" if accepted else "package refuses"
            counts[mode, side, why or "UNKNOWN %r" % payload[:60]] += 1
    print(len(payloads), "payloads")
    for (mode, side, why), count in sorted(counts.items()):
        print("%-16s %-16s %-44s %5d" % (mode, side, why, count))
    sys.exit(1 if unknown else 0)


if __name__ == "__main__":
    main()
