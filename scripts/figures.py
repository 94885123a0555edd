#!/usr/bin/env python3
"""Compares figures that stand in several places: limits, the ratio to LEMON, versions.

Usage: figures.py. A row of FIGURES is a figure and the places where it stands, each a file and a
pattern with one group. All places must have the same digits; one that the pattern doesn't find is a
fault too. It prints a line for each fault, and ends with status 1 if there are any."""
import os
import re
import sys

TOP = os.path.join(os.path.dirname(os.path.abspath(__file__)), "..")
FIGURES = {
    "vertices of an instance": (
        ("crates/mb_problem/src/limits.rt", r"VERTEX_LIMIT: u32 = ([\d_]+)"),
        ("python/blossom/kinds.py", r"MOST_NODES = (\d+)"),
        ("README.md", r"at most ([\d,]+) vertices, [\d,]+ edges"),
        ("docs/FORMAT.md", r"N vertices \(0 to ([\d,]+)\)"),
        ("docs/PROOF.md", r"at\s+most\s+([\d,]+)\s+vertices,"),
        ("packaging/blossom.1", r"At most ([\d,]+) vertices"),
    ),
    "edges of an instance": (
        ("crates/mb_problem/src/limits.rt", r"EDGE_LIMIT: u32 = ([\d_]+)"),
        ("python/blossom/kinds.py", r"MOST_EDGES = (\d+)"),
        ("README.md", r"at most [\d,]+ vertices, ([\d,]+) edges"),
        ("docs/FORMAT.md", r"M edges \(0 to ([\d,]+)\)"),
        ("docs/PROOF.md", r"[\d,]+\s+vertices,\s+([\d,]+)\s+edges"),
        ("packaging/blossom.1", r"vertices, ([\d,]+) edges"),
    ),
    "vertices of a certificate graph": (
        ("python/blossom/kinds.py", r"MOST_VERTICES = (\d+)"),
        ("README.md", r"certificate graph has at most ([\d,]+) vertices"),
        ("docs/FORMAT.md", r"H has at most ([\d,]+) vertices"),
        ("docs/PROOF.md", r"m\s+edges,\s+within\s+([\d,]+)\s+and"),
    ),
    "edges of a certificate graph": (
        ("python/blossom/kinds.py", r"MOST_PAIRS = (\d+)"),
        ("README.md", r"certificate graph has at most [\d,]+ vertices and ([\d,]+) edges"),
        ("docs/FORMAT.md", r"H has at most [\d,]+ vertices and ([\d,]+) edges"),
        ("docs/PROOF.md", r"m\s+edges,\s+within\s+[\d,]+\s+and\s+([\d,]+)"),
    ),
    "bytes of input to solve": (
        ("docs/FORMAT.md", r"for `check`, ([\d,]+) for `solve`"),
        ("capi/blossom.h", r"\(check\) or ([\d,]+)"),
    ),
    "bytes of input to check": (
        ("docs/FORMAT.md", r"more than ([\d,]+) bytes of input for `check`"),
        ("capi/blossom.h", r"text over ([\d,]+) bytes \(check\)"),
        ("packaging/blossom_check_plain.py", r"LONGEST = ([\d_]+)"),
    ),
    "time beside LEMON": (
        ("README.md", r"blossom takes (\d\.\d+) of LEMON's processor time"),
        ("docs/PERFORMANCE.md", r"`solve --brief` takes (\d\.\d+) of\s+LEMON's time"),
    ),
    "graphs beside LEMON": (
        ("README.md", r"Over (\d+) graphs of \d+ families"),
        ("docs/PERFORMANCE.md", r"Over (\d+) graphs of \d+ families"),
    ),
    "families beside LEMON": (
        ("README.md", r"Over \d+ graphs of (\d+) families"),
        ("docs/PERFORMANCE.md", r"Over \d+ graphs of (\d+) families"),
    ),
    "version of glibc": (
        ("README.md", r"glibc of version (\d+\.\d+)"),
        ("scripts/release.py", r'"program": "(\d+\.\d+)"'),
    ),
    "version of the C library's calls": (
        ("capi/blossom.h", r"#define BLOSSOM_ABI (\d+)"),
        ("scripts/targets.py", r'SONAME = "libblossom\.so\.(\d+)"'),
        ("crates/blossom_c/src/border.rt", r"fn blossom_abi[^{]*\{ result ≡ (\d+)"),
    ),
}


def digits(text):
    return re.sub(r"[,_]", "", text)


def faults():
    for figure, places in FIGURES.items():
        found = {}
        for path, pattern in places:
            with open(os.path.join(TOP, path), encoding="utf-8") as file:
                told = re.search(pattern, file.read())
            if told is None:
                yield "%s: %s doesn't tell it as %r" % (figure, path, pattern)
            else:
                found[path] = digits(told[1])
        if len(set(found.values())) > 1:
            places = ", ".join("%s in %s" % (value, path) for path, value in found.items())
            yield "%s differs: %s" % (figure, places)


def main():
    found = list(faults())
    print("\n".join(found + ["%d figures, %d faults" % (len(FIGURES), len(found))]))
    sys.exit(1 if found else 0)


if __name__ == "__main__":
    main()
