#!/usr/bin/env python3
"""Reading instances, against a plain reader of the same bytes. The document is missing, so
`check` stops after the instance."""
import sys

from instances import instance
from timing import report

CHECK = ["check", "perfect"]
comments = b"c a line that says nothing of the graph, as long as such lines are\n"
count = 16 * 2**20 // len(comments)
good = [
    report(
        "instance of 65,536 edges", CHECK, instance(4096, 65536), b"s REJECTED DocForm 65538\n", 3
    ),
    report(
        "16 MiB of comments",
        CHECK,
        comments * count + b"p edge 0 0\n",
        b"s REJECTED DocForm %d\n" % (count + 2),
        3,
    ),
]
sys.exit(0 if all(good) else 1)
