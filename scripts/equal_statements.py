#!/usr/bin/env python3
"""Lists the statements that two or more files of proofs/ have, up to the names of bound variables:
state each once, in the lowest crate that can hold it.

Usage: equal_statements.py [TOP]. For each statement it prints the places, and then the type. The
last line counts them and their spare copies."""
import collections
import glob
import os
import re
import sys

STATEMENT = re.compile(r"(?:pub )?(?:abbrev )?([^\s:()\-][^\s:]*) : (.*)$")
#: What binds names: brackets with a type, and functions.
BOUND = (r"[({]([^(){}:]+?) : ", r"λ \(?([^.():]+?)(?: :[^.]*?)?\)?\. ")
SHOWN = 230


def without_names(statement):
    """A statement with numbers in place of the names that it binds."""
    text = re.sub(r"\s+", " ", statement).strip()
    names = [name for bound in BOUND for found in re.findall(bound, text) for name in found.split()]
    for number, name in enumerate(dict.fromkeys(names)):
        text = re.sub(r"(?<![\w.\-])%s(?![\w\-])" % re.escape(name), "§%d" % number, text)
    return text


def statements(text):
    """The statements of a file, each a name and a type: a type goes on in indented lines."""
    lines = text.split("\n")
    for number, line in enumerate(lines):
        head = STATEMENT.match(line)
        if head and not line.startswith(("use", "record")):
            end = number + 1
            while end < len(lines) and lines[end].startswith("  "):
                end += 1
            yield head[1], " ".join([head[2], *(one.strip() for one in lines[number + 1 : end])])


def equal_ones(top):
    """Statements that several files have, with their places."""
    found = collections.defaultdict(list)
    for path in sorted(glob.glob(os.path.join(top, "crates/*/proofs/**/*.antt"), recursive=True)):
        with open(path, encoding="utf-8") as file:
            for name, statement in statements(file.read()):
                place = os.path.relpath(path, os.path.join(top, "crates"))
                found[without_names(statement)].append((place, name))
    for statement, places in sorted(found.items()):
        if len({path for path, _ in places}) > 1 and "→" in statement:
            yield statement, places


def main(words):
    copies = []
    for statement, places in equal_ones(words[0] if words else "."):
        print("; ".join("%s:%s" % place for place in places))
        print("      " + statement[:SHOWN])
        copies.append(len({path for path, _ in places}) - 1)
    print("%d statements, %d spare copies" % (len(copies), sum(copies)))


if __name__ == "__main__":
    main(sys.argv[1:])
