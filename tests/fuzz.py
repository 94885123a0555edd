#!/usr/bin/env python3
"""Inputs changed at random: the program ends within ten seconds by no signal, with a status from 0
to 8 and the answer that belongs to it; what it refuses and what `check` answers is what the plain
reader and the plain checker say, and `check` accepts what `solve` writes.

Usage: fuzz.py PROGRAM [COUNT [SEED [PROCESSES]]]. The last line is 'N passed, M failed'. A seed
gives the same inputs each time."""
import glob
import multiprocessing
import os
import random
import signal
import sys

import mutate
import plain_instances
import tables
from kinds import KINDS

HERE = os.path.dirname(os.path.abspath(__file__))
sys.path.append(os.path.join(HERE, "..", "packaging"))
import blossom_check_plain  # noqa: E402

SECONDS = 10  # that a run may take
CHUNK = 500  # inputs of one seed
LONGEST_CHANGED = 20_000  # bytes of a table's input
CHECKED, SOLVED = (
    2_000,
    150,
)  # edges of the largest graph that the plain checker and the solver are asked about
BYTES = (
    b"\0",
    b"\r",
    b"\t",
    b" ",
    b"\n",
    b"-",
    b"0",
    b"9",
    b"c",
    b"s",
    b"z",
    b"\xff",
    b"\xc3\xa9",
    b"1000000000001",
    b"-1000000000000000000",
    b"99999999999999999999",
    b"4096",
    b"65536",
    b"65537",
    b"p edge 2 1\n",
    b"n 1 1\n",
    b"n 1 0 1\n",
    b"n 1 2 1\n",
    b"e 1 2\n",
    b"e 1 1\n",
    b"s OPTIMAL perfect 0\n",
    b"@",
    b" @1",
    b" @2",
    b"z 1 3 1 2 3\n",
    b"z 1 3 4 5 @1\n",
)
FIRST = {
    0: ("s ACCEPTED", "s OPTIMAL", "s INFEASIBLE", "s NONCONSERVATIVE"),
    1: ("s REJECTED",),
    3: ("s MALFORMED",),
    4: ("s TOOLARGE",),
}


def stored_inputs():
    """The inputs that are changed, with their kinds: stored documents, examples, and the rows of
    the tables."""
    paths = glob.glob(os.path.join(HERE, "documents", "*", "*.checked")) + glob.glob(
        os.path.join(HERE, "..", "examples", "*.checked")
    )
    for path in sorted(paths):
        folder = os.path.basename(os.path.dirname(path))
        with open(path, "rb") as file:
            yield (folder if folder in KINDS else os.path.basename(path).split("-")[0]), file.read()
    for case in tables.cases():
        given = tables.given(case)
        of_kind = len(case["words"]) > 1 and case["words"][1] in KINDS
        if of_kind and b"e " in given and len(given) < LONGEST_CHANGED:
            yield case["words"][1], given


def changed_bytes(chance, given):
    """The input with one change somewhere in its bytes."""
    place = chance.randrange(len(given) + 1)
    choice = chance.randrange(6)
    if choice == 0:
        return given[:place]
    if choice == 1:
        return given[:place] + given[place + chance.randrange(1, 9) :]
    if choice == 2:
        return given[:place] + bytes([chance.randrange(256)]) + given[place + 1 :]
    if choice == 3:
        return given[:place] + given[place : place + chance.randrange(1, 40)] + given[place:]
    if choice == 4:
        return (
            given[:place] + chance.choice(BYTES) * chance.choice((1, 1, 1, 2, 300)) + given[place:]
        )
    return given[:place] + chance.choice(BYTES) + given[place:]


def changed_lines(chance, given, other):
    """The input with one change of its lines: a field, a line gone, twice, elsewhere, or taken
    from another input."""
    lines, others = given.split(b"\n"), other.split(b"\n")
    place, there = chance.randrange(len(lines)), chance.randrange(len(lines))
    choice = chance.randrange(10)
    if choice == 0:
        del lines[place]
    elif choice == 1:
        lines.insert(there, lines[place])
    elif choice == 2:
        lines[place], lines[there] = lines[there], lines[place]
    elif choice == 3:
        lines.insert(place, chance.choice(others))
    elif b" " in lines[place]:
        lines[place] = mutate.changed_field(chance, lines[place].decode("latin-1")).encode(
            "latin-1"
        )
    return b"\n".join(lines)


def with_bounds(chance, given):
    """The input with two bounds of a degree in each line that gives a vertex one number."""
    lines = [line.split(b" ") for line in given.split(b"\n")]
    for fields in lines:
        if fields[0] == b"n" and len(fields) == 3 and fields[2].isdigit():
            fields.insert(2, b"%d" % chance.randrange(int(fields[2][-4:]) + 1))
    return b"\n".join(map(b" ".join, lines))


def made(chance, corpus):
    """Words and an input, changed in a few places or not at all."""
    kind, given = chance.choice(corpus)
    for _ in range(chance.choice((0, 1, 1, 1, 2, 2, 3, 5))):
        given = (
            changed_lines(chance, given, chance.choice(corpus)[1])
            if chance.randrange(3)
            else changed_bytes(chance, given)
        )
    if chance.randrange(8) == 0:
        kind = chance.choice(KINDS)
        given = with_bounds(chance, given) if kind == "interval" else given
    command = "solve" if chance.randrange(4) == 0 else "check"
    if command == "solve" and chance.randrange(4):
        given = given.partition(b"\ns ")[0] + b"\n"
    return command, kind, given


class Program:
    """The program, run with memory files for its streams."""

    def __init__(self, path):
        self.path, self.child = path, None
        self.files = [os.memfd_create(name) for name in ("given", "output", "errors")]
        signal.signal(signal.SIGALRM, lambda *_: os.kill(self.child, signal.SIGKILL))

    def run(self, words, given):
        """How the program ended (below 0: by a signal), and what it wrote on both streams."""
        for file in self.files:
            os.ftruncate(file, 0)
            os.lseek(file, 0, os.SEEK_SET)
        os.pwrite(self.files[0], given, 0)
        streams = [(os.POSIX_SPAWN_DUP2, file, end) for end, file in enumerate(self.files)]
        self.child = os.posix_spawn(
            self.path, ["blossom"] + words, os.environ, file_actions=streams
        )
        signal.alarm(SECONDS)
        _, status = os.waitpid(self.child, 0)
        signal.alarm(0)
        written = [
            os.pread(file, os.fstat(file).st_size, 0).decode("latin-1") for file in self.files[1:]
        ]
        return os.waitstatus_to_exitcode(status), written[0], written[1]


def fault(program, command, kind, given):
    """What is wrong with the program's answer, or None."""
    text = given.decode("latin-1")
    wanted, size = plain_instances.refusal(command, kind, text)
    if command == "solve" and wanted is None and size[1] > SOLVED:
        return None
    status, output, errors = program.run([command, kind], given)
    if errors or status not in FIRST or not output.startswith(FIRST[status]):
        return "status %d, output %r, errors %r" % (status, output[:200], errors[:200])
    if wanted is None and command == "check" and size[1] <= CHECKED:
        wanted = blossom_check_plain.answer(kind, given)
    if wanted is not None and wanted != (status, output):
        return "wanted %r, got %r" % (wanted, (status, output[:200]))
    if wanted is None and command == "solve":
        ends = b"" if given.endswith(b"\n") or not given else b"\n"
        answer = program.run(["check", kind], given + ends + output.encode("latin-1"))
        if status != 0 or answer != (0, "s ACCEPTED\n", ""):
            return "status %d, its document %r is answered %r" % (status, output[:200], answer)
    return None


def chunk(job):
    """The faults of the inputs of one seed."""
    path, seed, count = job
    sys.set_int_max_str_digits(0)
    program, chance, corpus, faults = (
        Program(path),
        random.Random(seed),
        sorted(set(stored_inputs())),
        [],
    )
    for _ in range(count):
        command, kind, given = made(chance, corpus)
        wrong = fault(program, command, kind, given)
        if wrong is not None:
            faults.append(
                "FAILED %s %s\n  input    %r\n  %s" % (command, kind, given[:2_000], wrong)
            )
    for file in program.files:
        os.close(file)
    return count, faults


def run(path, count, seed=1, processes=None):
    """Prints the faults of so many inputs, and answers how many inputs passed and failed."""
    jobs = [
        (path, "%d/%d" % (seed, start), min(CHUNK, count - start))
        for start in range(0, count, CHUNK)
    ]
    passed = failed = 0
    with multiprocessing.Pool(processes) as pool:
        for tried, faults in pool.imap(chunk, jobs):
            passed, failed = passed + tried - len(faults), failed + len(faults)
            for text in faults:
                print(text, flush=True)
    return passed, failed


if __name__ == "__main__":
    NUMBERS = [int(word) for word in sys.argv[2:]] + [20_000, 1, None][len(sys.argv) - 2 :]
    PASSED, FAILED = run(os.path.abspath(sys.argv[1]), *NUMBERS)
    print("%d passed, %d failed" % (PASSED, FAILED))
    sys.exit(0 if FAILED == 0 and PASSED > 0 else 1)
