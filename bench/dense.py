#!/usr/bin/env python3
"""Dense instances, by pricing, beside LEMON's matching on the complete graph: processor time of the
whole call in Python, over that of LEMON's search alone, without reading. The weights are compared.

Prints a line for each instance; with goals, whether the ratio reaches them. The last lines have the
seconds and the memory of the largest instance, of a process of its own. The status is 1 if weights
differ or a goal isn't reached.

Usage: dense.py [--runs N] [--part TEXT], where Debian's liblemon-dev, numpy and scipy are installed."""
import argparse
import os
import resource
import subprocess
import sys
import time

from timing import HERE, PROGRAM, compiled

sys.path.insert(0, os.path.join(HERE, "..", "python"))
os.environ.setdefault("BLOSSOM", PROGRAM)

import numpy  # noqa: E402

import blossom  # noqa: E402
from blossom.dense.given import from_points  # noqa: E402

#: How many times as fast as LEMON the call is to be, by the number of points.
GOALS = {1000: 8, 2000: 12}
#: The largest instance: within these seconds and MiB.
LARGEST, SECONDS, MEMORY = 4096, 2, 300
SCALE = 10**6


def instances():
    """The name of each instance, the arguments of the call, and its costs as a matrix."""
    for size in (300, 1000, 2000):
        points = numpy.random.default_rng(size).random((size, 2))
        costs = from_points(points, "euclidean", 1, SCALE, None, ()).pairs
        yield "points", size, {"points": points, "scale": SCALE}, costs
    for size in (300, 1000):
        rows = numpy.random.default_rng(size).integers(0, 10**6, (size, size))
        rows = numpy.triu(rows, 1) + numpy.triu(rows, 1).T
        yield "uniform costs", size, {"costs": rows}, None


def text_of(size, costs, matrix):
    """All pairs as LEMON's program reads them."""
    one, other = numpy.triu_indices(size, 1)
    weights = matrix[one, other] if costs is None else costs.costs(one, other)
    lines = numpy.stack((one + 1, other + 1, weights)).T
    rows = ("e %d %d %d\n" * len(lines)) % tuple(lines.ravel().tolist())
    return ("p edge %d %d\n" % (size, len(lines)) + rows).encode()


def used():
    """Processor seconds of this process and of its children so far."""
    own, others = resource.getrusage(resource.RUSAGE_SELF), resource.getrusage(
        resource.RUSAGE_CHILDREN
    )
    return own.ru_utime + own.ru_stime + others.ru_utime + others.ru_stime


def seconds(words, runs):
    """The least processor seconds of a call, and its answer."""
    best, answer = None, None
    for _ in range(runs):
        start = used()
        answer = blossom.min_weight_perfect_matching(**words)
        took = used() - start
        best = took if best is None else min(best, took)
    return best, answer


def beside_lemon(name, size, words, costs, runs):
    """Prints one instance beside LEMON; whether it is as it should be."""
    took, answer = seconds(words, runs)
    text = text_of(size, costs, words.get("costs"))
    done = subprocess.run([compiled("lemon_matching")], input=text, capture_output=True)
    theirs, known = float(done.stderr), int(done.stdout)
    same = answer.weight * answer.instance.scale == known and bool(answer.check())
    goal = GOALS.get(size) if name == "points" else None
    late = goal is not None and theirs / took < goal
    print(
        "%-14s n %5d  pairs %8d  in the last round %6d  blossom %7.3f s  LEMON %7.3f s  times as fast"
        " %6.1f%s%s%s"
        % (
            name,
            size,
            size * (size - 1) // 2,
            answer.instance.edge_count,
            took,
            theirs,
            theirs / took,
            "" if goal is None else " (goal %d)" % goal,
            "  TOO SLOW" if late else "",
            "" if same else "  ANSWERS DIFFER",
        ),
        flush=True,
    )
    return same and not late


def most_memory():
    """The most MiB that this process has had, or one of its children. (What `getrusage` says of this
    process is no less than what the one that started it had then.)"""
    with open("/proc/self/status", encoding="ascii") as file:
        own = next(int(line.split()[1]) for line in file if line.startswith("VmHWM"))
    return max(own, resource.getrusage(resource.RUSAGE_CHILDREN).ru_maxrss) / 1024


def largest():
    """Solves the largest instance, and prints its seconds and memory; whether they are within the
    goals."""
    points = numpy.random.default_rng(LARGEST).random((LARGEST, 2))
    start = time.perf_counter()
    answer = blossom.min_weight_perfect_matching(points=points)
    wall = time.perf_counter() - start
    peak = most_memory()
    start = time.perf_counter()
    accepted = bool(answer.check())
    checked = time.perf_counter() - start
    within = wall <= SECONDS and peak <= MEMORY
    print(
        "points         n %5d  pairs %8d  in the last round %6d  %.2f s on the wall, %.2f s"
        " of processors (goal %d s), %.0f MiB at most (goal %d MiB)%s; check %.2f s"
        % (
            LARGEST,
            LARGEST * (LARGEST - 1) // 2,
            answer.instance.edge_count,
            wall,
            used(),
            SECONDS,
            peak,
            MEMORY,
            "" if within else "  TOO MUCH",
            checked,
        )
    )
    return within and accepted


def main():
    parser = argparse.ArgumentParser(description=__doc__)
    parser.add_argument("--runs", type=int, default=3)
    parser.add_argument("--part", default="")
    parser.add_argument("--largest", action="store_true", help=argparse.SUPPRESS)
    args = parser.parse_args()
    if args.largest:
        return 0 if largest() else 1
    if not os.path.exists("/usr/include/lemon/matching.h"):
        print("LEMON isn't installed (Debian's liblemon-dev), so nothing is compared")
        return 0
    good = True
    for name, size, words, costs in instances():
        if args.part in "%s %d" % (name, size):
            good = beside_lemon(name, size, words, costs, args.runs) and good
    if args.part in "largest":
        done = subprocess.run([sys.executable, os.path.abspath(__file__), "--largest"])
        good = done.returncode == 0 and good
    return 0 if good else 1


if __name__ == "__main__":
    sys.exit(main())
