#!/usr/bin/env python3
"""Room that the program asks for is what its input justifies. Large inputs and counts that say more
than follows end with their verdict, under a limit on the address space; a table of a wrong size
shows as status 8, out of memory.

Usage: asked_room.py PROGRAM."""
import os
import resource
import subprocess
import sys

MIB = 2**20
#: The program with its starter and its libraries, and so many times the bytes of the input.
OWN = 192 * MIB
TIMES = 24
#: A count at the limits of 18 and 19 digits, of 31, 32 and 63 bits, and one that is negative.
COUNTS = (10**9, 2**31, 2**32, 10**18 - 1, 10**18, 2**62, 2**63 - 1, 2**63, 10**30, -1)


def limited(program, words, given):
    """One run with as much address space as an input of that length justifies."""
    most = OWN + TIMES * len(given)
    done = subprocess.run(
        [program] + words,
        input=given,
        capture_output=True,
        timeout=300,
        preexec_fn=lambda: resource.setrlimit(resource.RLIMIT_AS, (most, most)),
    )
    return done.returncode, done.stdout.decode("latin-1"), done.stderr.decode("latin-1")


def star(parallel):
    """Two vertices and so many edges between them; the last one is the lightest."""
    edges = "".join("e 1 2 %d\n" % (parallel - k) for k in range(parallel))
    return ("p edge 2 %d\n" % parallel + edges).encode()


def great_degrees(program, tests):
    """A vertex may have as many edges as there may be in a graph of two vertices, and more where
    it stands for several."""
    for parallel in (4_095, 4_096, 4_097, 65_535, 65_536):
        name = "%d edges between two vertices" % parallel
        wanted = (0, "s OPTIMAL perfect 1\nx %d 1\n" % parallel, "")
        got = limited(program, ["solve", "perfect", "--brief"], star(parallel))
        tests.compare(name, name, wanted, got)
    given = star(5_000).replace(b"5000\n", b"5000\nn 1 2\nn 2 2\n", 1)
    for kind, wanted in (
        ("bmatch", "s OPTIMAL bmatch 2\nx 5000 2\n"),
        ("ffactor", "s OPTIMAL ffactor 3\nx 4999 1\nx 5000 1\n"),
    ):
        got = limited(program, ["solve", kind, "--brief"], given)
        tests.compare("5,000 edges, " + kind, kind, (0, wanted, ""), got)


def many_sets(program, tests):
    """More than a million sets, each with a verdict of its own."""
    head = (
        b"p edge 4 2\ne 1 2 1\ne 3 4 1\ns OPTIMAL perfect 2\nx 1 1\nx 2 1\n"
        b"y 1 0\ny 2 1\ny 3 1\ny 4 0\n"
    )
    for name, line, wanted in (
        ("sets of three", b"z 1 3 1 2 3\n", "s REJECTED Slack 4\n"),
        ("sets of one", b"z 1 1 1\n", "s REJECTED SetForm 11\n"),
    ):
        given = head + line * 1_000_001
        got = limited(program, ["check", "perfect"], given)
        tests.compare("1,000,001 " + name, name, (1, wanted, ""), got)


def large_certificates(program, tests):
    """Answers are accepted if the graphs of their certificates have more than 1,000 vertices."""
    path = "p edge 1202 1201\n" + "".join("e %d %d 1\n" % (v, v + 1) for v in range(1, 1202))
    values = "".join("n %d 1024\n" % v for v in (1, 2))
    copies = "p edge 2 1\n" + values + "e 1 2 1\n"
    for kind, text in (("perfect", path), ("match", path), ("gallai", path), ("bmatch", copies)):
        status, document, said = limited(program, ["solve", kind], text.encode())
        tests.compare("a large graph, solve " + kind, text, (0, ""), (status, said))
        got = limited(program, ["check", kind], (text + document).encode())
        tests.compare("a large graph, check " + kind, text, (0, "s ACCEPTED\n", ""), got)


def hostile_counts(program, tests):
    """A count that says more than its line holds, or less than none, makes the document lack form,
    whatever it says."""
    graph = "p edge 3 3\ne 1 2 1\ne 2 3 1\ne 1 3 1\n"
    lines = (
        ("perfect", graph, "s INFEASIBLE perfect\nu %d 1\n", 6),
        ("perfect", graph, "s OPTIMAL perfect 2\nz 1 %d 1 2 3\n", 6),
        ("postman", graph, "s OPTIMAL postman 3\nw 1 %d 1 2 3\n", 6),
        ("tjoin", graph, "s INFEASIBLE tjoin\nt %d 1\n", 6),
        ("gallai", graph, "s OPTIMAL gallai 1\nx 1 1\nr 3 %d 2\n", 7),
    )
    for kind, text, document, line in lines:
        for count in COUNTS:
            given = text + document % count
            got = limited(program, ["check", kind], given.encode())
            refused = got[0] == 1 and got[1].startswith("s REJECTED Doc") and got[2] == ""
            name = "a count of %d in line %d of %s" % (count, line, kind)
            tests.compare(name, given, (True, str(line)), (refused, got[1].split()[-1]))


def check(program, tests):
    great_degrees(program, tests)
    many_sets(program, tests)
    large_certificates(program, tests)
    hostile_counts(program, tests)


class Report:
    """Prints what fails, if this is run by itself."""

    def __init__(self):
        self.passed = 0
        self.failed = 0

    def compare(self, name, given, wanted, got):
        if got == wanted:
            self.passed += 1
            return
        self.failed += 1
        print("FAILED %s\n  expected %r\n  got      %r" % (name, wanted, got))


if __name__ == "__main__":
    report = Report()
    check(os.path.abspath(sys.argv[1]), report)
    print("%d passed, %d failed" % (report.passed, report.failed))
    sys.exit(0 if report.failed == 0 and report.passed > 0 else 1)
