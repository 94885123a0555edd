"""The Debian package in a bare root of Debian 12: README.md's commands install it, and it solves
and checks a first graph in the shell and in Python. lintian finds no error in it."""
import os
import re
import shutil
import subprocess
import tempfile

from c_parts import Skipped
from two_commands import by_the_wheel, first_answer, inside, put_clone, put_root

GRAPH = "p edge 4 4\ne 1 2 3\ne 2 3 1\ne 3 4 3\ne 4 1 1\n"
SHELL = "cd /tmp; blossom solve perfect < graph > answer; cat graph answer | %s perfect"
PYTHON = """import blossom
answer = blossom.min_weight_perfect_matching([(1, 2, 3), (2, 3, 1), (3, 4, 3), (4, 1, 1)])
print(answer.edges, answer.weight, bool(answer.check(engine="library")), bool(answer.check()))
"""
FILES = (
    "/usr/share/man/man1/blossom.1.gz",
    "/usr/share/bash-completion/completions/blossom",
    "/usr/include/blossom.h",
    "/usr/lib/x86_64-linux-gnu/libblossom.a",
    "/usr/lib/x86_64-linux-gnu/pkgconfig/blossom.pc",
    "/usr/share/doc/blossom/docs/FORMAT.md",
    "/usr/share/doc/blossom/CONTRACTS.md",
    "/usr/share/blossom/examples/two-triangles.dimacs",
)


def debian_root(program, release, tests):
    """The package is installed, answers, and is whole; a changed file is found."""
    with tempfile.TemporaryDirectory() as folder:
        root = os.path.join(folder, "root")
        put_root(root)
        put_clone(root, os.path.dirname(release.debian))
        first_answer(root, tests)
        with open(os.path.join(root, "tmp", "graph"), "w", encoding="ascii") as file:
            file.write(GRAPH)
        for checker in ("blossom check", "blossom-check-plain"):
            got = inside(root, "bash", "-c", SHELL % checker)
            tests.compare("Debian: solve, then " + checker, b"", (0, "s ACCEPTED\n"), got)
        got = inside(root, "python3", "-c", PYTHON)
        tests.compare("Debian: Python", b"", (0, "[(2, 3), (4, 1)] 2 True True\n"), got)
        missing = [path for path in FILES if not os.path.exists(root + path)]
        tests.compare("Debian: files that are missing", b"", [], missing)
        changed_file(root, tests)
        by_the_wheel(root, PYTHON, tests)


def changed_file(root, tests):
    """blossom-verify says yes of the package, and names a file that was changed."""
    status, said = inside(root, "blossom-verify")
    told = re.match(r"\d\d+ files are those of blossom ", said) is not None
    tests.compare("Debian: blossom-verify", said.encode(), (0, True), (status, told))
    with open(root + FILES[2], "a", encoding="ascii") as file:
        file.write("/* more */\n")
    got = inside(root, "blossom-verify")
    tests.compare("Debian: a changed header", b"", (1, FILES[2] + " differs\n"), got)


def lintian(program, release, tests):
    """lintian finds no error in the package."""
    if shutil.which("lintian") is None:
        raise Skipped("lintian isn't installed")
    done = subprocess.run(["lintian", release.debian], capture_output=True, text=True)
    errors = [line for line in done.stdout.splitlines() if line.startswith("E:")]
    tests.compare("lintian's errors", b"", [], errors)
