"""What the benches share: the plain programs that they compare with, and the best wall time of
several runs."""
import glob
import os
import resource
import subprocess
import sys
import time

HERE = os.path.dirname(os.path.abspath(__file__))
PROGRAM = os.path.join(HERE, "..", "crates", "blossom", "out", "blossom")
# The program that runs one part of the work by itself.
PARTS = os.path.join(HERE, "..", "crates", "timed_parts", "out", "timed_parts")


def compiled(name):
    """A program in C++ of this folder, compiled where it isn't yet, or is older than its source or
    a header."""
    source, program = os.path.join(HERE, name + ".cpp"), os.path.join(HERE, "out", name)
    os.makedirs(os.path.dirname(program), exist_ok=True)
    changed = max(map(os.path.getmtime, [source, *glob.glob(os.path.join(HERE, "*.hpp"))]))
    if not os.path.exists(program) or os.path.getmtime(program) < changed:
        subprocess.run(["g++", "-O2", "-o", program, source], check=True)
    return program


def processor():
    """The processor seconds of all runs so far."""
    used = resource.getrusage(resource.RUSAGE_CHILDREN)
    return used.ru_utime + used.ru_stime


def seconds(words, given, wanted=None, runs=7, clock=time.perf_counter):
    """The least time of several runs, input from a file: on the wall, or by `processor`. Where
    `wanted` is given, the output is compared."""
    path = os.path.join(HERE, "out", "input")
    os.makedirs(os.path.dirname(path), exist_ok=True)
    with open(path, "wb") as file:
        file.write(given)
    best = None
    for _ in range(runs):
        with open(path, "rb") as file:
            start = clock()
            done = subprocess.run(words, stdin=file, capture_output=True)
            took = clock() - start
        if wanted is not None and done.stdout != wanted:
            sys.exit("%s printed %r, wanted %r" % (words, done.stdout[:200], wanted))
        best = took if best is None else min(best, took)
    return best


def report(name, words, given, wanted, most, peer="plain_reader"):
    """Prints the ratio of the program to a plain one, and says whether it is within the bound."""
    plain = seconds([compiled(peer)], given)
    own = seconds([PROGRAM] + words, given, wanted)
    ratio = own / plain
    print(
        "%-40s %8.1f MiB  plain %7.1f ms  blossom %7.1f ms  ratio %.2f (at most %g) %s"
        % (
            name,
            len(given) / 2**20,
            plain * 1000,
            own * 1000,
            ratio,
            most,
            "ok" if ratio <= most else "TOO SLOW",
        )
    )
    return ratio <= most
