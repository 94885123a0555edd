#!/usr/bin/env python3
"""Many calls of the library for C in one process, by tests/c_sources/many_runs.c: instances made
by seed, of each kind, well-formed and malformed, over arrays and over texts. That program compares
each answer with a plain reader and a plain solver in C and has the library check it. A share of its
calls over texts is compared here with the plain reader, checker and solver in Python.

Usage: c_many_runs.py FOLDER [COUNT [SEED [PROCESSES]]]. FOLDER has libblossom.so. The last lines
count runs by kind and status, and faults; the status is 1 if there is a fault."""
import collections
import concurrent.futures
import os
import re
import subprocess
import sys
import tempfile

import plain_checker
import plain_instances
import plain_solver
from c_compilers import C, found
from c_header import CAPI
from c_parts import EDGE, OUT, SOLVED, Skipped

HERE = os.path.dirname(os.path.abspath(__file__))
#: Runs in CI, of which every tenth is compared in Python.
RUNS, SHOWN = 20_000, 10
#: Runs of one process, and the share by hand.
CHUNK, SHOWN_BY_HAND = 100_000, 1_000
#: Edges of the largest instance that the plain solver is asked about.
LARGEST = 7
CALL = re.compile(rb"@ (\w+) (\w+) (\d+) (\d+) (\d+)\n")
LINES = re.compile(
    rb"FAULT (.*)\n|(\w+): tried all (\d+), statuses((?: \d+)+)\n|changed: (\d+),.*\n"
)


def compiled(room, folder):
    """Compiles the program with the library in a folder, without a warning."""
    compiler, words = found(C)
    made = os.path.join(room, "many_runs")
    source = os.path.join(HERE, "c_sources", "many_runs.c")
    library = os.path.join(folder, "libblossom.so")
    words = [compiler, *words, "-I" + CAPI, source, library]
    subprocess.run([*words, "-Wl,-rpath," + os.path.abspath(folder), "-o", made], check=True)
    return made


def plain_statement(kind, text):
    """The first line that an answer to a small instance has, or None if the instance is larger."""
    edges, values, vertices = [], {}, 0
    default = (0, 1) if kind == "interval" else int(kind in ("bmatch", "capmatch", "ffactor"))
    for fields in map(plain_checker.fields_of, text.split("\n")):
        numbers = [int(field) for field in fields[1:] if plain_checker.number(field) is not None]
        if fields and fields[0] == "p":
            vertices = numbers[0]
        elif fields and fields[0] == "e":
            edges.append((*numbers, *[1, None][len(numbers) - 2 :]))
        elif fields and fields[0] == "n":
            values[numbers[0]] = tuple(numbers[1:]) if kind == "interval" else numbers[1]
    if len(edges) > LARGEST:
        return None
    degrees = [values.get(v, default) for v in range(1, vertices + 1)]
    return plain_solver.first_lines(kind, edges, degrees)[0]


def fault(task, kind, status, given, answer):
    """What is wrong with a call over texts, by the plain programs, or None."""
    text, said = given.decode("latin-1"), answer.decode("latin-1")
    refused, _ = plain_instances.refusal(task, kind, text)
    if refused is None and task == "check":
        refused = plain_checker.answer_of(kind, text)
    if refused is not None:
        got = status, said
        return None if refused == got else "wanted %r, got %r" % (refused, got)
    first = plain_statement(kind, text)
    if status != 0 or first not in (None, said.split("\n")[0]):
        return "wanted %r, got %r" % (first, (status, said))
    judged = plain_checker.answer_of(kind, text + "\n" * (not text.endswith("\n")) + said)
    return None if judged == (0, "s ACCEPTED\n") else "its document is answered %r" % (judged,)


class Tally:
    """What came of some runs."""

    def __init__(self):
        self.faults, self.compared, self.changed = [], 0, 0
        self.by_kind = collections.defaultdict(collections.Counter)

    def read(self, told):
        """Reads what the program printed."""
        at = 0
        while at < len(told):
            call = CALL.match(told, at)
            line = call or LINES.match(told, at)
            end = told.find(b"\n", at) + 1 if line is None else line.end()
            if call:
                given, answer = (int(number) for number in call.groups()[3:])
                self.compare(call, told[end : end + given], told[end + given :][:answer])
                end += given + answer
            elif line and line[1]:
                self.faults.append(line[1].decode())
            elif line and line[2]:
                self.by_kind[line[2].decode()].update(
                    dict(enumerate(map(int, line[4].split())), known=int(line[3]))
                )
            elif line:
                self.changed += int(line[5])
            at = end

    def compare(self, call, given, answer):
        task, kind, status = call[1].decode(), call[2].decode(), int(call[3])
        self.compared += 1
        wrong = fault(task, kind, status, given, answer)
        if wrong is not None:
            self.faults.append("%s %s of %r: %s" % (task, kind, given[:2000], wrong))

    def add(self, other):
        self.faults += other.faults
        self.compared += other.compared
        self.changed += other.changed
        for kind, counts in other.by_kind.items():
            self.by_kind[kind].update(counts)

    def runs(self):
        return sum(counts[status] for counts in self.by_kind.values() for status in range(11))


def tallied(job):
    """The runs of one process of the program."""
    made, seed, first, count, shown = job
    words = [made, *map(str, (seed, first, count, shown))]
    done = subprocess.run(words, stdout=subprocess.PIPE)
    tally = Tally()
    tally.read(done.stdout)
    if done.returncode not in (0, 1) or tally.runs() != count:
        tally.faults.append("%s ends with status %d" % (" ".join(words), done.returncode))
    return tally


def many(folder, count, seed, shown, processes=1, tell=lambda whole: None):
    """So many runs of a seed with the library in a folder. `tell` is told what came so far."""
    whole = Tally()
    with tempfile.TemporaryDirectory() as room:
        made = compiled(room, folder)
        jobs = [
            (made, seed, first, min(CHUNK, count - first), shown)
            for first in range(0, count, CHUNK)
        ]
        with concurrent.futures.ThreadPoolExecutor(processes) as executor:
            for tally in executor.map(tallied, jobs):
                whole.add(tally)
                tell(whole)
    return whole


def many_runs(program, library, tests):
    """Twenty thousand made instances, well-formed and malformed, over arrays and over texts."""
    tally = many(OUT, RUNS, 1, SHOWN)
    for told in tally.faults:
        tests.compare("many runs of the library for C", b"", None, told)
    kinds = {kind for kind, counts in tally.by_kind.items() if counts[0] and counts[3]}
    tests.compare("many runs: kinds with answers and refusals", b"", 13, len(kinds))
    tests.compare("many runs: as many as wanted", b"", RUNS, tally.runs())
    tests.compare("many runs: enough compared", b"", True, tally.compared > RUNS // SHOWN)
    wrong = SOLVED.replace(b"y 1 5", b"y 1 6")
    found = [
        fault("check", "perfect", 0, EDGE + wrong, b"s ACCEPTED\n"),
        fault("solve", "perfect", 0, EDGE, wrong),
        fault("solve", "perfect", 0, EDGE, SOLVED.replace(b" 5", b" 4")),
        fault("solve", "perfect", 0, EDGE, SOLVED),
    ]
    seen = [one is not None for one in found]
    tests.compare("many runs: wrong answers are seen", b"", [True, True, True, False], seen)


def so_far(tally):
    print("%d runs, %d faults" % (tally.runs(), len(tally.faults)), flush=True)


def main(folder, count=RUNS, seed=1, processes=1):
    numbers = int(count), int(seed), SHOWN_BY_HAND, int(processes)
    tally = many(folder, *numbers, so_far)
    for told in tally.faults:
        print("FAULT", told)
    for kind, counts in tally.by_kind.items():
        told = ["%d %d" % (status, counts[status]) for status in range(11) if counts[status]]
        print("%s: %s; by trying all %d" % (kind, ", ".join(told), counts["known"]))
    print("%d changed, %d calls compared in Python" % (tally.changed, tally.compared))
    so_far(tally)
    return 1 if tally.faults else 0


PARTS = (many_runs,)

if __name__ == "__main__":
    try:
        sys.exit(main(*sys.argv[1:]))
    except Skipped as reason:
        sys.exit(str(reason))
