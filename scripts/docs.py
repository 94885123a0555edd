#!/usr/bin/env python3
"""Writes the generated parts of docs/, and checks that pages still tell what they told.

Usage: docs.py [--check | --lengths]. A part stands between `<!-- generated: NAME -->` and
`<!-- end -->`. PARTS makes those of the crates (of crates.txt, their pages and the comments above
clauses), of the Python package (of its docstrings), of the C header and of the gallery (of
examples/gallery); other scripts make the others. With --check nothing is written: a page that
differs is listed, and so is each name of scripts/told.txt (rules, letters, statuses, clauses) that
its page doesn't have. With --lengths it prints how many lines of each page are written by hand, and
how many are generated. The status is 1 if anything is listed, or if a page is longer than LIMITS
allow."""
import argparse
import glob
import os
import re
import sys

import crate_pages
import gallery_page
import header_page
import must_fail_page
import proof_page
import python_page
import wrong_bodies_page
from crate_groups import TOP, read

#: What makes a part, by page and name.
PARTS = {
    "docs/CRATES.md": {"crates": crate_pages.crates_part},
    "docs/PROMISES.md": {"promises": crate_pages.promises_part},
    "docs/PYTHON.md": {
        "guide": python_page.guide_part,
        "reference": python_page.reference_part,
    },
    "docs/GALLERY.md": {"gallery": gallery_page.gallery_part},
    "docs/C.md": {
        "old names": header_page.old_names_part,
        "layout": header_page.layout_part,
        "input errors": header_page.input_errors_part,
        "join layout": header_page.join_layout_part,
        "join outcomes": header_page.join_outcomes_part,
        "tasks": header_page.tasks_part,
        "kinds": header_page.kinds_part,
    },
    "docs/TESTING.md": {
        "must-fail edits": must_fail_page.must_fail_part,
        "wrong bodies": wrong_bodies_page.wrong_bodies_part,
    },
    "docs/PROOF.md": {"reach": proof_page.reach_part},
}
#: Parts that other scripts make: a name, or the path of the script, and the script.
OTHERS = dict.fromkeys(("problems", "kinds", "feasible", "letters"), "scripts/kinds.py")
PART = re.compile(r"(<!-- generated: (.+?) -->\n)(.*?)(<!-- end -->\n)", re.S)
#: Pages whose lines are counted: what is written by hand in all of them is limited together.
COUNTED = (
    "README.md",
    "CHANGELOG.md",
    "CONTRIBUTING.md",
    "docs/*.md",
    "capi/*.md",
    "python/*.md",
    "crates/*/README.md",
)
MOST_BY_HAND = 2700
#: How many lines a page may have, with what is generated.
LIMITS = {"README.md": 120, "docs/DECISIONS.md": 350, "docs/PROOF.md": 200}


def with_parts(text, makers):
    """A page with its parts made anew."""
    missing = set(makers) - {name for _, name, _, _ in PART.findall(text)}
    if missing:
        raise ValueError("a page without its generated part: %s" % ", ".join(sorted(missing)))

    def made(part):
        if part[2] not in makers:
            return part[0]
        return "%s\n%s\n\n%s" % (part[1], "\n".join(makers[part[2]]()).strip("\n"), part[4])

    return PART.sub(made, text)


def differing(page_of=read):
    """The pages whose generated parts aren't what is made now."""
    for path, makers in PARTS.items():
        if page_of(path) != with_parts(page_of(path), makers):
            yield "%s: run scripts/docs.py" % path


def unmade(path, text):
    """Parts of a page that no script makes, which would count as generated."""
    for _, name, _, _ in PART.findall(text):
        script = OTHERS.get(name, name)
        if name not in PARTS.get(path, {}) and not os.path.isfile(os.path.join(TOP, script)):
            yield "%s: no script makes the part %r" % (path, name)


def untold(lines, page_of=read):
    """The names that their page doesn't have any more, in backticks. A line is a page and a name,
    and behind `->` the name that took its place."""
    for line in lines:
        if not line or line.startswith("#"):
            continue
        page, _, name = line.partition(" ")
        name = name.split(" -> ")[-1]
        told = " ".join(re.findall(r"`([^`\n]+)`", page_of(page)))
        if not re.search(r"(?<!\w)%s(?!\w)" % re.escape(name), told):
            yield "%s: %s isn't told any more" % (page, name)


def lengths_of(text):
    """How many lines of a page are written by hand, and how many are generated."""
    generated = sum(part[2].count("\n") for part in PART.findall(text))
    return text.count("\n") - generated, generated


def pages():
    """The paths of all pages that are counted."""
    found = [path for pattern in COUNTED for path in sorted(glob.glob(os.path.join(TOP, pattern)))]
    return [os.path.relpath(path, TOP) for path in found]


def counted():
    """The pages that are counted, with their lengths; those of the crates as one."""
    crates = [0, 0]
    for name in pages():
        lengths = lengths_of(read(name))
        if name.startswith("crates/"):
            crates = [a + b for a, b in zip(crates, lengths)]
        else:
            yield name, lengths
    yield "crates/*/README.md", tuple(crates)


def past_limits(lengths):
    """What is longer than it may be."""
    by_hand = sum(hand for _, (hand, _) in lengths)
    if by_hand > MOST_BY_HAND:
        yield "%d lines are written by hand: at most %d" % (by_hand, MOST_BY_HAND)
    for name, (hand, generated) in lengths:
        if hand + generated > LIMITS.get(name, hand + generated):
            yield "%s has %d lines: at most %d" % (name, hand + generated, LIMITS[name])


def show_lengths():
    """Prints the lengths, and returns what is past a limit."""
    lengths = list(counted())
    lengths.append(("in all", tuple(map(sum, zip(*(both for _, both in lengths))))))
    for name, (hand, generated) in lengths:
        print("%5d by hand, %5d generated: %s" % (hand, generated, name))
    return list(past_limits(lengths[:-1]))


def write():
    for path, makers in PARTS.items():
        page = with_parts(read(path), makers)
        with open(os.path.join(TOP, path), "w", encoding="utf-8") as file:
            file.write(page)


def main():
    parser = argparse.ArgumentParser(description=__doc__.split("\n")[0])
    ways = parser.add_mutually_exclusive_group()
    ways.add_argument("--check", action="store_true")
    ways.add_argument("--lengths", action="store_true")
    asked = parser.parse_args()
    if not asked.check and not asked.lengths:
        return write()
    if asked.lengths:
        found = show_lengths()
    else:
        told = read("scripts/told.txt").splitlines()
        found = [*untold(told), *differing()]
        found += [line for path in pages() for line in unmade(path, read(path))]
    print("\n".join(found) if found else "the pages are as they should be")
    sys.exit(1 if found else 0)


if __name__ == "__main__":
    main()
