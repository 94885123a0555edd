#!/usr/bin/env python3
"""The queues of events on their own, by the processor's time, beside the same work in plain C++
with one heap. In a round of the first 65,536 edges get 131,072 moments, and the least is taken
until none is left. In a round of the second, for moments that only rise, 65,536 nodes get 196,608
moments, and the least is taken after each third and at the end. Both programs write a checksum of
what came, which is compared; what a run of no rounds takes is left out."""
import subprocess
import sys

from timing import PARTS, compiled, processor, seconds

ROUNDS = 40

# The part, what it does, the words of the plain program, and the greatest ratio.
QUEUES = [
    ("queue", "65,536 edges, 131,072 moments a round", [], 1.5),
    ("rising", "65,536 nodes, 196,608 moments a round that rise", ["rising"], 3),
]


def taken(program, rest, wanted):
    """What a round takes, the least of several runs."""
    whole = seconds(program + [str(ROUNDS)] + rest, b"", wanted, clock=processor)
    return (whole - seconds(program + ["0"] + rest, b"", b"0\n", clock=processor)) / ROUNDS


def is_fast(part, work, rest, most):
    """Prints the ratio of a part to the plain program, and says whether it is within the bound."""
    peer = compiled("plain_queue")
    wanted = subprocess.check_output([peer, str(ROUNDS)] + rest)
    plain, own = taken([peer], rest, wanted), taken([PARTS, part], [], wanted)
    ratio = own / plain
    print(
        "%-6s of %s: plain %.2f ms  blossom %.2f ms  ratio %.2f (at most %g) %s"
        % (part, work, plain * 1000, own * 1000, ratio, most, "ok" if ratio <= most else "TOO SLOW")
    )
    return ratio <= most


sys.exit(0 if all([is_fast(*queue) for queue in QUEUES]) else 1)
