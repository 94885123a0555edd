#!/usr/bin/env python3
"""`check perfect` on the largest instance with its document, against a plain reader of the same
bytes; and with 1,000 nested sets, against a plain program that reads the same bytes and adds up
the slacks; and a long walk of a postman, against the reader."""
import sys

from instances import with_document, with_nested_sets, with_postman_walk
from timing import report

CHECK = ["check", "perfect"]
good = [
    report(
        "check, 4,096 vertices, 65,536 edges", CHECK, with_document(4096, 65536), b"s ACCEPTED\n", 3
    ),
    report(
        "the same with 1,000 nested sets",
        CHECK,
        with_nested_sets(4096, 65536, 1000),
        b"s ACCEPTED\n",
        5,
        peer="plain_checker",
    ),
    report(
        "a postman's walk of 4,000,000 edges",
        ["check", "postman"],
        with_postman_walk(4_000_000),
        b"s ACCEPTED\n",
        5,
    ),
]
sys.exit(0 if all(good) else 1)
