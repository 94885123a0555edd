#!/usr/bin/env python3
"""Building the graphs that certificates speak of, at their greatest numbers of edges, against
plain loops that make the same edges; and `check bmatch` on the largest of them, against reading
that graph as text. Both programs build the graph 60 times in one run, and what a run without
building takes is left out."""
import sys

from instances import copies_as_graph, largest_gadgets, with_large_copies
from timing import PARTS, PROGRAM, compiled, seconds

TIMES = 60


def building(program, kind, given):
    """The seconds of one build."""
    return (
        seconds(program + [kind, str(TIMES)], given) - seconds(program + [kind, "0"], given)
    ) / TIMES


good = True
for kind, edges, given in largest_gadgets():
    plain, own = building([compiled("plain_gadget")], kind, given), building(
        [PARTS, "gadget"], kind, given
    )
    good = good and own <= 5 * plain
    print(
        "build %-9s %9d edges  plain %7.2f ms  blossom %7.2f ms  ratio %.2f (at most 5)"
        % (kind, edges, plain * 1000, own * 1000, own / plain)
    )
reading = seconds([compiled("plain_reader")], copies_as_graph())
checking = seconds([PROGRAM, "check", "bmatch"], with_large_copies(), b"s ACCEPTED\n")
good = good and checking <= 5 * reading
print(
    "check bmatch, 1,048,576 edges: %.1f ms, reading that graph as text %.1f ms, ratio %.2f (at most 5)"
    % (checking * 1000, reading * 1000, checking / reading)
)
sys.exit(0 if good else 1)
