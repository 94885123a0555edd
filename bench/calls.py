#!/usr/bin/env python3
"""Times of the calls of the library for C, in one run: over arrays beside over texts.

Usage: calls.py, after capi/build.sh. Prints a row for each instance, and ends with a failure where
a call on 10 vertices and 20 edges takes more than 10 microseconds, or one on 4,096 vertices and
65,536 edges of equal weights more than 0.8 of the time of the call over its text. Where weights
differ the search, which both do, is most of a call."""
import os
import subprocess
import sys

from timing import HERE

LIBRARY = os.path.join(HERE, "..", "capi", "out", "libblossom.so")
MOST_SECONDS, MOST_RATIO = 10e-6, 0.8
#: Number of the kind, its name, vertices, edges, calls in a round, rounds, one more than the
#: greatest weight. Where all weights are equal a search is short, and reading is much of a call.
INSTANCES = (
    (1, "perfect", 10, 20, 200, 500, 100000),
    (2, "match", 10, 20, 200, 500, 100000),
    (1, "perfect", 256, 2048, 2, 100, 100000),
    (1, "perfect", 4096, 65536, 1, 15, 100000),
    (1, "perfect", 4096, 65536, 1, 15, 1),
)


def compiled():
    """The program that times calls, compiled with the library."""
    source = os.path.join(HERE, "array_calls.cpp")
    program = os.path.join(HERE, "out", "array_calls")
    folder = os.path.abspath(os.path.dirname(LIBRARY))
    os.makedirs(os.path.dirname(program), exist_ok=True)
    subprocess.run(
        ["g++", "-O2", "-o", program, source, LIBRARY, "-Wl,-rpath," + folder],
        check=True,
    )
    return program


def main():
    program, failed = compiled(), False
    print("| Instance | Over arrays | In brief | Over text | Arrays / text |")
    print("|---|---|---|---|---|")
    for number, kind, vertices, edges, *turns in INSTANCES:
        words = [program, *map(str, (number, vertices, edges, *turns))]
        done = subprocess.run(words, capture_output=True, text=True, check=True)
        arrays, brief, text = map(float, done.stdout.split())
        ratio = arrays / text
        print(
            "| `%s`, %d vertices, %d edges, weights below %d | %.1f us | %.1f us | %.1f us | %.2f |"
            % (kind, vertices, edges, turns[-1], 1e6 * arrays, 1e6 * brief, 1e6 * text, ratio),
            flush=True,
        )
        if kind == "perfect" and vertices == 10 and arrays > MOST_SECONDS:
            failed = True
        if vertices == 4096 and turns[-1] == 1 and ratio > MOST_RATIO:
            failed = True
    sys.exit(failed)


if __name__ == "__main__":
    main()
