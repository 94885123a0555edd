#!/usr/bin/env python3
"""Input that no tool writes, against a plain reader of the same bytes, by the processor's time.
Each case is timed whole and cut to half: twice the bytes take at most some more than twice the
time, so nothing in it is quadratic.

Usage: hostile.py [WORD..] times the cases whose names hold one of the words, or all."""
import sys

from hostile_inputs import CASES, MIB
from timing import PROGRAM, compiled, processor, seconds

MOST = 3  # times the plain reader
GROWTH = 2.6  # times the time of half the bytes


def measured(words, case, size):
    given, wanted = case(size)
    runs = 7 if size <= 16 * MIB else 4
    own = seconds([PROGRAM] + words, given, wanted, runs, processor)
    return len(given), own, seconds([compiled("plain_reader")], given, None, runs, processor)


def report(name, words, size, case):
    """Prints the ratios at half the size and at the size, and how the time grew, and says
    whether all are within their bounds."""
    _, half, half_plain = measured(words, case, size // 2)
    length, whole, plain = measured(words, case, size)
    good = whole <= MOST * plain and whole <= GROWTH * max(half, 0.01)
    print(
        "%-40s %5.1f MiB  plain %7.1f ms  blossom %7.1f ms  ratio %.2f, of half %.2f (at most %g)  growth %.2f (at most %g) %s"
        % (
            name,
            length / MIB,
            plain * 1000,
            whole * 1000,
            whole / plain,
            half / half_plain,
            MOST,
            whole / half,
            GROWTH,
            "ok" if good else "TOO SLOW",
        ),
        flush=True,
    )
    return good


good = [
    report(*case)
    for case in CASES
    if not sys.argv[1:] or any(word in case[0] for word in sys.argv[1:])
]
sys.exit(0 if good and all(good) else 1)
