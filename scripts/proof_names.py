#!/usr/bin/env python3
"""Checks that what docs/PROOF.md names exists.

Usage: proof_names.py [--check] [FILE]. On the page, `crate::call` is a call, the names behind it
and a colon are clauses of its contract, [`Name`](../crates/CRATE/specs/FILE.antt) is a definition of
that file, and each other name in backticks is a crate, a definition, a path or one of WORDS. Prints
a line for each name that doesn't exist, and ends with status 1 if there are any."""
import argparse
import glob
import os
import re
import sys

from crate_groups import TOP, crates, read
from promises import all_definitions, contracts_of

PAGE = "docs/PROOF.md"
#: What the page names beside calls, clauses, definitions, crates and paths.
WORDS = set(
    "solve check trial path bottleneck gallai postman interval oddpath evenpath match perfect bmatch "
    "capmatch ffactor tjoin requires ensures OutOfMemory DocForm rt PROVED.json".split()
) | {"blossom-verify CHECKOUT"}
NAMES = r"`\w+`(?:(?:, | and |, and )`\w+`)*"
CITED = re.compile(r"`(\w+(?:::\w+)+)`(?:: (%s))?" % NAMES)
DEFINED = re.compile(r"\[`([^`]+)`\]\(\.\./crates/([\w/]+)\.antt\)")
LINK = re.compile(r"\]\((?!https?:|#)([^)#]+)(?:#[^)]*)?\)")


def all_contracts():
    """All calls as `crate::call`, with the clauses of their contracts. Where a crate has two calls
    of a name, those of both."""
    found = {}
    for crate in crates():
        for call, clauses in contracts_of(crate).items():
            found["%s::%s" % (crate, call)] = clauses
    return found


def unknown_clauses(text, calls):
    """Calls that no crate has, and clauses that their contract doesn't have."""
    for call, clauses in CITED.findall(text):
        if call not in calls:
            yield "no crate has the call %s" % call
            continue
        for clause in re.findall(r"\w+", clauses.replace(" and ", " ")):
            if clause not in calls[call]:
                yield "the contract of %s has no clause %s" % (call, clause)


def unknown_definitions(text, definitions):
    """Definitions that their file doesn't have."""
    defined = {(path, key[1]) for key, (path, _) in definitions.lines.items()}
    for name, path in DEFINED.findall(text):
        if (path + ".antt", name) not in defined:
            yield "crates/%s.antt doesn't define %s" % (path, name)


def unknown_names(text, definitions):
    """Other names in backticks, and links, that lead nowhere."""
    known = WORDS | set(crates()) | {key[1] for key in definitions.lines}
    for name in re.findall(r"`([^`]+)`", DEFINED.sub("", CITED.sub("", text))):
        if name not in known and not are_paths(name):
            yield "no crate, definition or path is %s" % name
    for link in LINK.findall(text):
        if not os.path.exists(os.path.join(TOP, "docs", link)):
            yield "no page is at %s" % link


def are_paths(name):
    """Whether the words with a slash are paths below the top, and there are some."""
    paths = [word for word in name.split() if "/" in word]
    return bool(paths) and all(glob.glob(os.path.join(TOP, path)) for path in paths)


def findings(text):
    """All names of a page that don't exist."""
    prose = re.sub(r"^ {4}.*$", "", text, flags=re.M)
    prose = re.sub(r"\s*\n\s*(?=\S)", " ", prose)
    definitions = all_definitions()
    yield from unknown_clauses(prose, all_contracts())
    yield from unknown_definitions(prose, definitions)
    yield from unknown_names(prose, definitions)


def main():
    parser = argparse.ArgumentParser(description=__doc__.split("\n")[0])
    parser.add_argument("--check", action="store_true", help="what the script does in any case")
    parser.add_argument("page", nargs="?", default=PAGE)
    found = list(findings(read(parser.parse_args().page)))
    print("\n".join(found) if found else "all names exist")
    sys.exit(1 if found else 0)


if __name__ == "__main__":
    main()
