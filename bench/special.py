#!/usr/bin/env python3
"""`solve` beside the special algorithms that people choose for single jobs (LEMON of Debian's
liblemon-dev), as a table in Markdown: processor time of whole processes, the least of several runs
in turn, and the ratio to the special algorithm. Shots of a decoder go through the library for C,
all by one call and then one call for each, and their times are those within one process.

Usage: special.py [--part WORD] [--runs N] [--check] [--before PROGRAM] [--library FILE]. A part is
the jobs whose name has the word. It fails if two weights differ; for decompositions the sets have
to agree as well, also with those of a plain search. With `--check` it fails too if a ratio is more
than a fifth past its goal.

With `--before` an older build of the program takes its turn on joins where guessing an answer costs
most, and `--check` holds each to one and a half times the older build's time."""
import argparse
import math
import os
import subprocess
import sys

from special_jobs import JOBS, SHOTS, WORST
from timing import HERE, PROGRAM, compiled, processor

LIBRARY = os.path.join(HERE, "..", "capi", "out", "libblossom.so")
SPARE, MOST_OF_BEFORE = 1.2, 1.5
HEAD = (
    "| Job | `solve --brief` | With certificate | Special | Ratio | Goal |\n"
    "|---|--:|--:|--:|--:|--:|"
)


def written(given):
    path = os.path.join(HERE, "out", "instance")
    os.makedirs(os.path.dirname(path), exist_ok=True)
    with open(path, "wb") as file:
        file.write(given)
    return path


def least_times(programs, given, runs):
    """For each program, which is its words, the least processor time in milliseconds, the programs
    taking turns; and what each printed at last."""
    path, times, printed = written(given), [[] for _ in programs], [""] * len(programs)
    for turn in range(runs * len(programs)):
        which = turn % len(programs)
        with open(path, "rb") as file:
            start = processor()
            done = subprocess.run(programs[which], stdin=file, capture_output=True)
            times[which].append(1000 * (processor() - start))
        printed[which] = done.stdout.decode()
    return [min(of) for of in times], printed


def lines_of(text, letters):
    return [line for line in text.splitlines() if line[0] in letters]


def agree(kind, ours, theirs):
    """Whether an answer states the weight, and for decompositions the sets, that a peer printed."""
    words, wanted = ours.split("\n")[0].split(), theirs.split()[0]
    same = words == (
        ["s", "INFEASIBLE", kind] if wanted == "none" else ["s", "OPTIMAL", kind, wanted]
    )
    return same and (kind != "gallai" or lines_of(ours, "du") == lines_of(theirs, "du"))


def figure(number):
    """The number with three digits that count, without an exponent."""
    places = 2 - math.floor(math.log10(number)) if number > 0 else 0
    return format(round(number, places), ",.%df" % max(places, 0))


def marked(ratio, most):
    """The ratio, in bold if it is past this."""
    return ("**%s**" if ratio > most else "%s") % figure(ratio)


class Table:
    """What was printed so far: whether all weights agree, and whether a goal was missed."""

    def __init__(self, part):
        self.part, self.good, self.missed, self.rows = part, True, [], 0

    def wants(self, name):
        return self.part in name

    def row(self, name, times, special, goals, unit):
        """A row: our times and goals, without certificate and with it or None."""
        both = [(time / special, goal) for time, goal in zip(times, goals) if goal is not None]
        if any(ratio > SPARE * goal for ratio, goal in both):
            self.missed.append(name)
        shown = ["%s %s" % (figure(time), unit) if time else "" for time in (*times, special)]
        ratios = ", ".join(marked(ratio, SPARE * goal) for ratio, goal in both)
        wanted = ", ".join(figure(goal) for _, goal in both)
        print("| %s |" % " | ".join([name, *shown, ratios, wanted]), flush=True)
        self.rows += 1

    def differ(self, name):
        print("ANSWERS DIFFER: " + name, flush=True)
        self.good = False


def job_row(table, job, args):
    """One job: `solve` without certificate and, if its goal is known, with it, and the peer."""
    own = [PROGRAM, "solve", job.kind]
    full = [own] if job.most_in_full else []
    peer = [compiled(job.peer[0]), *job.peer[1:]]
    plain = [[compiled("plain_gallai")]] if job.kind == "gallai" else []
    given = job.make()
    times, printed = least_times([own + ["--brief"], *full, peer, *plain], given, args.runs)
    count = 1 + len(full)
    if not all(agree(job.kind, a, b) for a in printed[:count] for b in printed[count:]):
        table.differ(job.name)
    brief, certified = times[0], times[1] if full else None
    goals = job.most, job.most_in_full
    table.row(job.name, (brief, certified), times[count], goals, "ms")


def shots_program(library):
    """The program that times shots, compiled with the library."""
    source, program = os.path.join(HERE, "join_shots.cpp"), os.path.join(HERE, "out", "join_shots")
    folder = os.path.abspath(os.path.dirname(library))
    os.makedirs(os.path.dirname(program), exist_ok=True)
    subprocess.run(
        ["g++", "-O2", "-o", program, source, library, "-Wl,-rpath," + folder], check=True
    )
    return program


def shot_rows(table, args):
    """Shots through the library for C beside LEMON's on the distances between terminals."""
    wanted = [row for row in SHOTS if table.wants(row[0])]
    program = shots_program(args.library) if wanted else None
    for name, make, most in wanted:
        with open(written(make()), "rb") as file:
            done = subprocess.run([program, str(args.runs)], stdin=file, capture_output=True)
        if done.returncode != 0:
            table.differ(name)
            continue
        own, single, other = map(float, done.stdout.split())
        table.row(name, (own, None), other, (most, None), "us")
        table.row(name + ", a call for each", (single, None), other, (None, None), "us")


def worst_rows(table, args):
    """The joins where guessing an answer costs most, beside an older build."""
    print("\n| Join | `solve tjoin --brief` | Before | Ratio |\n|---|--:|--:|--:|")
    for name, make in filter(lambda row: table.wants(row[0]), WORST):
        programs = [[program, "solve", "tjoin", "--brief"] for program in (PROGRAM, args.before)]
        times, printed = least_times(programs, make(), args.runs)
        if len({text.split("\n")[0] for text in printed}) != 1:
            table.differ(name)
        ratio = times[0] / times[1]
        if ratio > MOST_OF_BEFORE:
            table.missed.append(name)
        row = (name, *map(figure, times), marked(ratio, MOST_OF_BEFORE))
        print("| %s | %s ms | %s ms | %s |" % row, flush=True)
        table.rows += 1


def arguments():
    parser = argparse.ArgumentParser()
    parser.add_argument("--part", default="")
    parser.add_argument("--runs", type=int, default=7)
    parser.add_argument("--check", action="store_true")
    parser.add_argument("--before")
    parser.add_argument("--library", default=LIBRARY)
    return parser.parse_args()


def main():
    args = arguments()
    if not os.path.exists("/usr/include/lemon/matching.h"):
        print("LEMON isn't installed (Debian's liblemon-dev), so nothing is compared")
        return 1 if args.check else 0
    table = Table(args.part)
    print(HEAD)
    for job in JOBS:
        if table.wants(job.name):
            job_row(table, job, args)
    shot_rows(table, args)
    if args.before:
        worst_rows(table, args)
    if table.rows == 0:
        print("no such job")
    if table.missed:
        print("\nIn bold: past the goal. %d of %d rows." % (len(table.missed), table.rows))
    return 0 if table.good and table.rows and not (args.check and table.missed) else 1


if __name__ == "__main__":
    sys.exit(main())
