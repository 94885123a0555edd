#!/usr/bin/env python3
"""The peak resident size of `check` and `solve`, as a multiple of the greatest input that each
takes: on hostile input, and where the graph that certificates speak of is as large as its limits
allow. Fails past the multiples of docs/PERFORMANCE.md.

Usage: memory.py [WORD..] runs the cases whose names hold one of the words, or all."""
import os
import subprocess
import sys

from families import nested_triangles, odd_circuit
from hostile_inputs import CASES, MIB
from instances import instance, with_document, with_large_copies
from timing import HERE, PROGRAM

MOST = {
    "check": (512 * MIB, 21),
    "solve": (16 * MIB, 24),
}  # the greatest input, and how often the peak may be that


def alone(n, m):
    """A graph whose first vertex meets no edge, so that the search ends at once after it has
    taken its memory."""
    lines = instance(n - 1, m).decode().splitlines()
    moved = [line.split() for line in lines[1:]]
    return (
        "p edge %d %d\n" % (n, m)
        + "".join("e %d %d %s\n" % (int(u) + 1, int(v) + 1, w) for _, u, v, w in moved)
    ).encode()


LARGE = b"p edge 3 1\nn 1 1\nn 2 1024\nn 3 1023\ne 2 3 7\n"  # a graph of 2,048 vertices and 1,047,552 edges
# the same and copies that meet no edge
LARGEST = (
    b"p edge 7 1\nn 1 1\nn 2 1024\nn 3 1023\nn 4 4096\nn 5 4096\nn 6 4096\nn 7 2048\ne 2 3 7\n"
)
GRAPHS = [
    ("65,536 edges and their document", ["check", "perfect"], lambda: with_document(4096, 65536)),
    ("a graph of 1,048,576 edges", ["check", "bmatch"], with_large_copies),
    (
        "the same with sets of three",
        ["check", "bmatch"],
        lambda: with_sets(with_large_copies(), b"z 1 3 1 2 3\n"),
    ),
    ("65,536 edges", ["solve", "perfect"], lambda: alone(4096, 65536)),
    ("a graph of 1,047,552 edges", ["solve", "bmatch"], lambda: LARGE),
    ("a graph of 16,384 vertices and 1,047,552 edges", ["solve", "bmatch"], lambda: LARGEST),
    ("paths around an odd circuit of 4,095", ["solve", "gallai"], lambda: odd_circuit(4095)),
    ("paths in 4,095 nested triangles", ["solve", "gallai"], lambda: nested_triangles(4095)),
    (
        "a graph of 1,047,552 edges after comments",
        ["solve", "bmatch"],
        lambda: b"c\n" * (8 * MIB - len(LARGE)) + LARGE,
    ),
]


def with_sets(head, line):
    """A document with as many sets behind it as `check` takes."""
    return head + line * ((512 * MIB - len(head)) // len(line))


# A process counts the size of the one that it was forked from, so a small one starts the program.
STARTER = """import resource, subprocess, sys
done = subprocess.run(sys.argv[1:], capture_output=True)
print(resource.getrusage(resource.RUSAGE_CHILDREN).ru_maxrss, done.stdout.split(b"\\n")[0].decode())"""


def peak(words, given):
    """The peak resident size of a run in bytes, and the first line of its answer."""
    path = os.path.join(HERE, "out", "input")
    os.makedirs(os.path.dirname(path), exist_ok=True)
    with open(path, "wb") as file:
        file.write(given)
    with open(path, "rb") as file:
        done = subprocess.run(
            [sys.executable, "-c", STARTER, PROGRAM] + words,
            stdin=file,
            capture_output=True,
            text=True,
            check=True,
        )
    size, _, answer = done.stdout.strip().partition(" ")
    return int(size) * 1024, answer


def report(name, words, given):
    """Prints the peak of a run, and says whether it is within the bound."""
    size, answer = peak(words, given)
    limit, most = MOST[words[0]]
    good = size <= most * limit
    print(
        "%-6s %-42s %6.1f MiB  peak %7.1f MiB  %5.1f times the input, %5.2f times the greatest (at most %g) %s  %s"
        % (
            words[0],
            name,
            len(given) / MIB,
            size / MIB,
            size / len(given),
            size / limit,
            most,
            "ok" if good else "TOO MUCH",
            answer,
        ),
        flush=True,
    )
    return good


def main():
    chosen = lambda name: not sys.argv[1:] or any(word in name for word in sys.argv[1:])
    good = [report(name, words, case(size)[0]) for name, words, size, case in CASES if chosen(name)]
    good += [report(name, words, made()) for name, words, made in GRAPHS if chosen(name)]
    sys.exit(0 if good and all(good) else 1)


main()
