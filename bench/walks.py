#!/usr/bin/env python3
"""Walking along all of 65,536 edges, of a graph of even degrees and of one where a join is
walked twice, beside a plain program in C++ that reads the same instance. `timed_parts` walks 60
times in one run, and what a run without walks takes is left out."""
import random
import sys

from timing import PARTS, compiled, seconds

WALKER = [PARTS, "walk"]
VERTICES, EDGES = 4096, 65536
TIMES = 60
MOST = 3


def text(edges, draw):
    lines = ["p edge %d %d" % (VERTICES, len(edges))]
    lines += ["e %d %d %d" % (u, v, draw.randint(0, 10**9)) for u, v in edges]
    return ("\n".join(lines) + "\n").encode()


def even_degrees(draw):
    """Circuits through all vertices, one beside the other, until there are as many edges as an
    instance may have."""
    edges = []
    for _ in range(EDGES // VERTICES):
        order = list(range(1, VERTICES + 1))
        draw.shuffle(order)
        edges += list(zip(order, order[1:] + order[:1]))
    draw.shuffle(edges)
    return edges


def any_degrees(draw):
    """A path through all vertices, and edges at random."""
    edges = [(v, v + 1) for v in range(1, VERTICES)]
    while len(edges) < EDGES:
        u, v = draw.randint(1, VERTICES), draw.randint(1, VERTICES)
        if u != v:
            edges.append((u, v))
    return edges


draw, good = random.Random(1), True
for name, edges in (("even degrees", even_degrees(draw)), ("any degrees", any_degrees(draw))):
    given = text(edges, draw)
    reading = seconds([compiled("plain_reader")], given)
    walking = (seconds(WALKER + [str(TIMES)], given) - seconds(WALKER + ["0"], given)) / TIMES
    good = good and walking <= MOST * reading
    print(
        "closed walk, %-12s %d edges: %.1f ms, reading the instance %.1f ms, ratio %.2f (at most %d)"
        % (name, len(edges), walking * 1000, reading * 1000, walking / reading, MOST)
    )
sys.exit(0 if good else 1)
