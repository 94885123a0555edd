#!/usr/bin/env python3
"""Plants wrong bodies at random, and says who notices them: the prover, a test, or nobody.

Usage: mutants.py --seed S --count N --where crates|python|scripts|c [--only NAME ..]
                  [--program PROGRAM] [--record FILE]

A wrong body has one change: another operator or constant, a branch that is always or never taken, a
statement that is gone, or two arguments that change places. If it doesn't compile, another is
drawn. Who tries it:

crates    the prover, over the libraries that `rt ci` left in crates/*/out
python    the tests of the package, over PROGRAM or the program that is built in the checkout
scripts   the tests of each script
c         the tests of the library for C that stands in capi/out, for capi and tests/c_sources

--only names crates or files. With --record, each body is added to a file with its verdict, and
bodies that stand there aren't tried again. The last lines are holes and a table. A hole is a body
that nobody notices and scripts/mutants_explained.txt doesn't explain: the same program, or a body
that another test of `.ci/run` notices. The status is 1 if there is a hole."""
import argparse
import collections
import json
import os
import random
import sys

import mutated_crates
import mutated_files
from sources import TOP

EXPLAINED = os.path.join(TOP, "scripts", "mutants_explained.txt")
PROGRAM = os.path.join(TOP, "crates", "blossom", "out", "blossom")
#: The verdicts in the order of the table. `names`: the prover refuses it, but only since a written
#: proof names a step that is gone. `limit`: the prover gives no verdict.
VERDICTS = ("refused", "names", "noticed", "same", "hole", "limit")


def shares(count, sizes):
    """How many bodies each gets: one after another gets one more, as long as it has functions."""
    found = dict.fromkeys(sizes, 0)
    while count > 0 and any(found[name] < sizes[name] for name in sizes):
        for name in sizes:
            more = count > 0 and found[name] < sizes[name]
            found[name], count = found[name] + more, count - more
    return found


def explained():
    """The bodies that are known to be no hole: 'same' or 'noticed' for each."""
    found = {}
    if os.path.exists(EXPLAINED):
        with open(EXPLAINED, encoding="utf-8") as file:
            for line in file:
                words = [part.strip() for part in line.split("|")]
                if len(words) == 5 and not line.startswith("#"):
                    found[tuple(words[1:4])] = words[0]
    return found


def named(row):
    """A body as scripts/mutants_explained.txt has it."""
    file, _, _, before, after = row[:5]
    return file, before.replace("|", "¦"), after.replace("|", "¦")


def of_crates(seed, count, only, have):
    """The bodies of crates, crate by crate."""
    lines = mutated_crates.crates(tests=False)
    sizes = {name: len(mutated_crates.able(name)) for name in lines}
    for name, share in shares(count, sizes).items():
        if (not only or name in only) and name not in have and share:
            if mutated_crates.are_below(name, lines):
                yield from mutated_crates.tried(name, random.Random("%s/%s" % (seed, name)), share)
            else:
                print("left out: %s (no libraries of crates below it)" % name, flush=True)


def recorded(path):
    """The rows of a file that --record made."""
    if not path or not os.path.exists(path):
        return []
    with open(path, encoding="utf-8") as file:
        return [json.loads(line) for line in file]


def table(rows, known):
    """Prints what isn't refused, and the table. Answers how many holes there are."""
    counts = collections.Counter()
    for row in rows:
        word = known.get(named(row), "hole") if row[-1] == "proved" else row[-1]
        word = word if word in VERDICTS else "limit"
        counts[word] += 1
        if word == "hole":
            print("HOLE %s %s: %s => %s" % (row[0], row[1], row[3], row[4]))
    for word in VERDICTS:
        print("%-8s %5d" % (word, counts[word]))
    return counts["hole"]


def main():
    parser = argparse.ArgumentParser(description=__doc__.split("\n")[0])
    parser.add_argument("--seed", type=int, default=1)
    parser.add_argument("--count", type=int, default=100)
    parser.add_argument("--where", choices=("crates", "python", "scripts", "c"), default="crates")
    parser.add_argument("--only", nargs="*", default=())
    parser.add_argument("--program", default=PROGRAM)
    parser.add_argument("--record")
    words = parser.parse_args()
    rows = recorded(words.record)
    have = {row[0].split("/")[1] for row in rows}
    if words.where == "crates":
        found = of_crates(words.seed, words.count, words.only, have)
    else:
        chance = random.Random("%s/%s" % (words.seed, words.where))
        found = mutated_files.tried(
            *(words.where, chance, words.count, words.program, words.only, len(rows)),
            words.record and words.record + ".reached",
        )
    for row in found:
        rows.append(row)
        print(*row, sep=" | ", flush=True)
        if words.record:
            with open(words.record, "a", encoding="utf-8") as file:
                file.write(json.dumps(row) + "\n")
    return 1 if table(rows, explained()) else 0


if __name__ == "__main__":
    sys.exit(main())
