#!/usr/bin/env python3
"""What a first `./blossom` costs on this machine, with nothing kept, of the present commit and of
earlier ones, one after the other: minutes on the wall, processor minutes, and the ratios to those
of the last one, with LEMON's time before and after each (Debian's liblemon-dev).

Usage: first_build.py [COMMIT ..]. Without words it builds the present commit, and then the one
whose figures on a faster machine are known (`KNOWN`); with such a ratio the present one's minutes
on that machine are said too.

Each is cloned to a folder of its own, and answers one `check`. An empty folder is laid over the one
that `rt ci` keeps in, for this build alone, which wants root. Machines differ by more than LEMON's
time tells, and one machine differs from hour to hour: have nothing else run on it."""
import os
import subprocess
import sys
import tempfile
import time

import families
import solve
from timing import compiled

TOP = os.path.dirname(os.path.dirname(os.path.abspath(__file__)))
# A state that was built on a quiet machine where LEMON took 20 ms: its commit, the minutes on the
# wall that it took there, and its processor minutes.
KNOWN, KNOWN_WALL, KNOWN_USED = "0859d60b", 14 + 18 / 60, 40.7
EXAMPLE = "examples/perfect-two-triangles.checked"
RUNS = 15
# Lays the first folder over the second, for itself and what it starts, and is the program then.
ALONE = 'mount --bind "$0" "$1" && exec ./blossom check perfect'


def kept_folder():
    """Where `rt ci` keeps what it has proved, which is made where it isn't there."""
    page = subprocess.run(["rt", "doc"], capture_output=True, text=True, check=True).stdout.strip()
    folder = os.path.join(os.path.dirname(os.path.dirname(page)), "rattle-kept")
    os.makedirs(folder, mode=0o700, exist_ok=True)
    return folder


def lemon():
    """LEMON's least time on the graph of factors, in words."""
    try:
        peer = compiled("lemon_matching")
    except subprocess.CalledProcessError:
        return "LEMON isn't installed"
    given = families.valued(300, 1200, 1, 10**6, False)
    path = solve.written("graph", solve.searched_graph("ffactor", given))
    least = min(solve.processor_time([peer], path)[0] for _ in range(RUNS))
    return "LEMON %.1f ms" % (1000 * least)


def build(commit):
    """Builds a commit with nothing kept, has it answer, and tells minutes on the wall and of
    processors."""
    with tempfile.TemporaryDirectory() as folder:
        clone, empty = os.path.join(folder, "clone"), os.path.join(folder, "empty")
        os.mkdir(empty, mode=0o700)
        subprocess.run(["git", "clone", "-q", TOP, clone], check=True)
        subprocess.run(["git", "checkout", "-q", commit], cwd=clone, check=True)
        words = ["unshare", "-m", "bash", "-c", ALONE, empty, kept_folder()]
        given_to_it = dict(os.environ, BLOSSOM_BUILD="1")  # (a release in dist/ is left aside)
        before, start = os.times(), time.monotonic()
        with open(os.path.join(clone, EXAMPLE), "rb") as given:
            done = subprocess.run(
                words, cwd=clone, stdin=given, stdout=subprocess.PIPE, env=given_to_it
            )
        wall, after = time.monotonic() - start, os.times()
    if done.returncode or done.stdout != b"s ACCEPTED\n":
        sys.exit("%s: status %d, answer %r" % (commit, done.returncode, done.stdout))
    used = after.children_user + after.children_system
    used -= before.children_user + before.children_system
    return wall / 60, used / 60


def main():
    commits = sys.argv[1:] or ["HEAD", KNOWN]
    found = []
    for commit in commits:
        before = lemon()
        wall, used = build(commit)
        found.append((wall, used))
        told = (commit, wall, used, before, lemon())
        row = "%-10s %5.1f min on the wall, %5.1f processor minutes; %s, then %s"
        print(row % told, flush=True)
    wall, used = (present / last for present, last in zip(found[0], found[-1]))
    print("%s to %s: %.3f on the wall, %.3f of processors" % (commits[0], commits[-1], wall, used))
    if commits[-1] == KNOWN:
        told = (KNOWN_WALL * wall, KNOWN_USED * used)
        print("where the latter took %.1f and %.1f: " % (KNOWN_WALL, KNOWN_USED), end="")
        print("%.1f min on the wall, %.1f processor minutes" % told)


if __name__ == "__main__":
    main()
