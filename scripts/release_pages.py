#!/usr/bin/env python3
"""The pages of a release: README.md, what it refers to, and what that refers to, with pictures and
scripts that are linked, and the generated page CONTRACTS.md.

Usage: release_pages.py. It lists the files, which keep their paths in a release, so that links
between pages lead where they lead in the repository."""
import functools
import os
import re
import sys

import contracts
from sources import TOP

FIRST = ("README.md", "CHANGELOG.md", "docs/FORMAT.md", "docs/C.md")
LINK = re.compile(r"\]\(([^)#\s]+)(?:#[^)]*)?\)")
NAMED = re.compile(r"`?\b((?:docs/)?[A-Z_]+\.md)\b")
GENERATED = "CONTRACTS.md"


def read(path):
    with open(os.path.join(TOP, path), "rb") as file:
        return file.read()


def links(path, text):
    """The files that a page links, by their paths from the top."""
    for target in LINK.findall(text):
        if not re.match(r"\w+:", target):
            yield os.path.normpath(os.path.join(os.path.dirname(path), target))


def named(path, text):
    """The pages that a page names without a link: beside it, in docs/, or from the top."""
    for name in NAMED.findall(text):
        for place in (os.path.join(os.path.dirname(path), name), name, "docs/" + name):
            if os.path.isfile(os.path.join(TOP, place)):
                yield os.path.normpath(place)
                break


def referred(path):
    """The files that a page refers to."""
    text = read(path).decode("utf-8")
    return {*links(path, text), *named(path, text)}


def paths():
    """The files of the repository that a release has as pages, by their paths."""
    found, left = set(FIRST), list(FIRST)
    while left:
        path = left.pop()
        more = referred(path) - found if path.endswith(".md") else set()
        found |= more
        left += sorted(more)
    return sorted(found)


@functools.lru_cache(maxsize=None)
def pages():
    """All pages of a release, by their paths below share/doc/blossom, and their bytes."""
    return {**{path: read(path) for path in paths()}, GENERATED: contracts.page().encode("utf-8")}


def main(words):
    if words:
        print(__doc__)
        return 2
    print("\n".join([*paths(), GENERATED]))
    return 0


if __name__ == "__main__":
    sys.exit(main(sys.argv[1:]))
