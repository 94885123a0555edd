#!/usr/bin/env python3
"""Checks an instance and a document as `blossom check KIND` does, without sharing a line with it.

Usage: blossom-check-plain KIND [FILE]. Without FILE it reads standard input. It prints what
`blossom check KIND` prints for the same bytes, and ends with the same status: 0 accepted, 1
rejected, 2 invalid arguments, 3 malformed, 4 too large, 5 too long, 6 a read failed, 7 a write
failed, 8 out of memory.

Reader and checker are plain Python, written from FORMAT.md alone and meant to be read:
plain_instances.py says which instances are refused, plain_checker.py what a document proves. They
take time that grows with the product of vertices and edges, so use them on small instances, or if
you doubt the proved checker."""
import os
import sys

HERE = os.path.dirname(os.path.realpath(__file__))
# Where the two modules are: beside this file, in an installed release, or in a checkout.
HOMES = (HERE, os.path.join(HERE, "..", "share", "blossom", "plain"), os.path.join(HERE, "../tests"))
sys.path[:0] = [home for home in HOMES if os.path.exists(os.path.join(home, "plain_checker.py"))]

import plain_checker  # noqa: E402
import plain_instances  # noqa: E402

LONGEST = 536_870_912
KINDS = tuple(plain_checker.LETTERS["OPTIMAL"])


def answer(kind, data):
    """The status and the line for these bytes."""
    if len(data) > LONGEST:
        return 5, "s TOOLONG\n"
    text = data.decode("latin-1")
    refused, _ = plain_instances.refusal("check", kind, text)
    return refused or plain_checker.answer_of(kind, text)


def read(words):
    """The bytes to judge, one more than are allowed at most."""
    if len(words) == 2:
        with open(words[1], "rb") as file:
            return file.read(LONGEST + 1)
    return sys.stdin.buffer.read(LONGEST + 1)


def main(words):
    if words in (["-h"], ["--help"]):
        print(__doc__)
        return 0
    if len(words) not in (1, 2) or words[0] not in KINDS:
        print("s USAGE")
        return 2
    sys.set_int_max_str_digits(0) if hasattr(sys, "set_int_max_str_digits") else None
    try:
        data = read(words)
    except OSError as error:
        print("blossom-check-plain: %s" % error, file=sys.stderr)
        return 6
    try:
        status, line = answer(words[0], data)
    except MemoryError:
        return 8
    try:
        sys.stdout.write(line)
        sys.stdout.flush()
    except OSError:
        os.dup2(os.open(os.devnull, os.O_WRONLY), sys.stdout.fileno())
        return 7
    return status


if __name__ == "__main__":
    sys.exit(main(sys.argv[1:]))
