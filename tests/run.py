#!/usr/bin/env python3
"""End-to-end tests of the built program: runs it on the cases of tests/cases and on made inputs.

Usage: run.py PROGRAM [--after-gate], or run.py --dist. With --after-gate, what the kit has just
proved is kept, and a whole build is made over that, too. With --dist the program and the libraries
are those of the release in dist/, and no toolchain is needed. Prints each failure and each test that is skipped, with
the reason; the last line is 'N passed, M failed, K skipped'; the status is 1 if a test failed or
none ran."""
import glob
import itertools
import os
import random
import signal
import subprocess
import sys

import asked_room
import builds
import c_library
import clause_tools
import decompositions
import dist
import dist_program
import from_dist
import fuzz
import launcher
import library_builds
import made
import mutate
import pages
import plain_checker
import plain_program
import plain_solver
import process_ends
import python_package
import refused_memory
import release
import special
import tables
import timed_parts
import written_pages

HERE = os.path.dirname(os.path.abspath(__file__))
USAGE = "s USAGE\n"


def run(words, given):
    """One run of the program: its status, what it printed, and what it wrote to standard error."""
    done = subprocess.run([PROGRAM] + words, input=given, capture_output=True, timeout=300)
    return done.returncode, done.stdout.decode("latin-1"), done.stderr.decode("latin-1")


class Tests:
    def __init__(self):
        self.passed = 0
        self.failed = 0
        self.skipped = 0

    def skip(self, name, reason):
        self.skipped += 1
        print("SKIPPED %s: %s" % (name, reason))

    def compare(self, name, given, wanted, got):
        if got == wanted:
            self.passed += 1
            return
        self.failed += 1
        print(
            "FAILED %s\n  input    %r\n  expected %r\n  got      %r"
            % (name, given[:300], wanted, got)
        )

    def expect(self, name, words, given, output, status):
        got = run(words, given)
        if got == (status, output, ""):
            self.passed += 1
            return
        self.failed += 1
        print(
            "FAILED %s\n  words    %s\n  input    %r\n  expected %r, status %d\n  got      %r, status %d, stderr %r"
            % (
                name,
                " ".join(words),
                given[:300],
                output,
                status,
                got[1][:300],
                got[0],
                got[2][:300],
            )
        )


def cases(tests):
    """The tables in tests/cases: each case gets its output and status, or is solved and checked."""
    for case in tables.cases():
        given = tables.given(case)
        if case.get("checked"):
            answered = run(case["words"], given)
            document = answered[1].encode("latin-1")
            tests.compare(case["name"] + ": solved", given, (0, ""), answered[::2])
            words = ["check"] + case["words"][1:]
            tests.expect(case["name"] + ": checked", words, given + document, "s ACCEPTED\n", 0)
        elif isinstance(case["output"], str):
            tests.expect(case["name"], case["words"], given, case["output"], case["status"])
        else:
            status, printed, said = run(case["words"], given)
            wanted = tables.is_as_wanted(case["output"], printed)
            tests.compare(case["name"], given, (case["status"], True, ""), (status, wanted, said))


def cut_files(tests):
    """An accepted input cut after each byte has the exact answer of what is left."""
    whole = b"p edge 2 1\ne 1 2 5\ns OPTIMAL perfect 5\nx 1 1\ny 1 5\ny 2 5\n"
    answers = [
        (0, "s MALFORMED HeaderMissing 1", 3),
        (1, "s MALFORMED HeaderForm 1", 3),
        (10, "s MALFORMED EdgeCount 2", 3),
        (12, "s MALFORMED FieldCount 2", 3),
        (16, "s REJECTED DocForm 3", 1),
        (38, "s REJECTED NotFeasible 3", 1),
        (40, "s REJECTED DocForm 4", 1),
        (44, "s REJECTED DualMissing 3", 1),
        (46, "s REJECTED DocForm 5", 1),
        (50, "s REJECTED DualMissing 3", 1),
        (52, "s REJECTED DocForm 6", 1),
        (56, "s ACCEPTED", 0),
    ]
    for length in range(len(whole) + 1):
        output, status = [(text, code) for start, text, code in answers if start <= length][-1]
        tests.expect(
            "cut after %d bytes" % length,
            ["check", "perfect"],
            whole[:length],
            output + "\n",
            status,
        )


def hostile_input(tests):
    """Input that no tool writes gets its exact refusal."""
    check = ["check", "perfect"]
    long_number = b"9" * 1000
    tests.expect(
        "a vertex of a thousand digits",
        check,
        b"p edge 2 1\ne 1 " + long_number + b"\n",
        "s MALFORMED Range 2\n",
        3,
    )
    tests.expect(
        "a count of a thousand digits",
        check,
        b"p edge " + long_number + b" 0\n",
        "s MALFORMED Range 1\n",
        3,
    )
    tests.expect(
        "a thousand zeros before a digit",
        check,
        b"p edge " + b"0" * 1000 + b"2 0\ns INFEASIBLE perfect\n",
        "s REJECTED NotBarrier 2\n",
        1,
    )
    tests.expect(
        "a weight of a thousand digits",
        ["solve", "perfect"],
        b"p edge 2 1\ne 1 2 " + long_number + b"\n",
        "s MALFORMED Range 2\n",
        3,
    )
    tests.expect(
        "a thousand zeros before a weight",
        ["solve", "perfect", "--brief"],
        b"p edge 2 1\ne 1 2 " + b"0" * 1000 + b"7\n",
        "s OPTIMAL perfect 7\nx 1 1\n",
        0,
    )
    tests.expect("NUL bytes", check, b"\0\0\0\n", "s MALFORMED UnknownLine 1\n", 3)
    tests.expect("a NUL byte in a number", check, b"p edge 2\0 1\n", "s MALFORMED Number 1\n", 3)
    tests.expect("bytes above 127", check, b"p edge 2 1\ne 1 \xff\n", "s MALFORMED Number 2\n", 3)
    tests.expect(
        "a carriage return inside a line", check, b"p edge\r 2 1\n", "s MALFORMED HeaderForm 1\n", 3
    )
    tests.expect(
        "16 MiB without a line end", check, b"x" * 16_777_216, "s MALFORMED UnknownLine 1\n", 3
    )
    tests.expect(
        "16 MiB of comments",
        check,
        b"c no edge\n" * 1_677_721,
        "s MALFORMED HeaderMissing 1677722\n",
        3,
    )
    tests.expect(
        "the longest input", check, b"\n" * 536_870_912, "s MALFORMED HeaderMissing 536870913\n", 3
    )
    tests.expect("one byte more than that", check, b"\n" * 536_870_913, "s TOOLONG\n", 5)


def hostile_documents(tests):
    """Documents that no solver writes get their exact verdict: graphs at their limit, and many
    sets."""
    for value, output, status in (
        (1024, "s ACCEPTED\n", 0),
        (1025, "s TOOLARGE 2049 1049600\n", 4),
    ):
        text = "p edge 2 1\nn 1 1024\nn 2 %d\ne 1 2 1\ns OPTIMAL bmatch 1024\nx 1 1024\n" % value
        text += "".join("y %d 1\n" % v for v in range(1, 2049))
        tests.expect(
            "copies of %d vertices" % (1024 + value),
            ["check", "bmatch"],
            text.encode(),
            output,
            status,
        )
    crossing = "p edge 4 2\ne 1 2 1\ne 3 4 1\ns OPTIMAL perfect 2\nx 1 1\nx 2 1\ny 1 0\ny 2 1\ny 3 1\ny 4 0\nz 1 3 1 2 3\nz 1 3 2 3 4\n"
    tests.expect(
        "ten thousand equal sets",
        ["check", "perfect"],
        (crossing + "z 1 3 2 3 4\n" * 10_000).encode(),
        "s REJECTED Slack 4\n",
        1,
    )
    # Their duals add up to more than 2^63: in 64 bits the slack would pass for a great one.
    tests.expect(
        "sets with great duals",
        ["check", "perfect"],
        (crossing + "z 1000000000000000000 3 1 2 3\n" * 10).encode(),
        "s REJECTED Slack 4\n",
        1,
    )
    parallel = (
        "p edge 4 65536\n"
        + "e 1 2 1\n" * 65_535
        + "e 3 4 1\ns OPTIMAL perfect 2\nx 1 1\nx 65536 1\ny 1 0\ny 2 1\ny 3 1\ny 4 0\n"
    )
    for sets, output, status in (
        ("z 1 3 1 2 3\nz 1 3 2 3 4\n", "s ACCEPTED\n", 0),
        ("z 1 3 1 2 3\n" * 50_000, "s REJECTED Slack 65538\n", 1),
    ):
        tests.expect(
            "%d sets at parallel edges" % sets.count("z"),
            ["check", "perfect"],
            (parallel + sets).encode(),
            output,
            status,
        )
    for loops, output, status in ((724, "s ACCEPTED\n", 0), (725, "s TOOLARGE 1450 1051250\n", 4)):
        text = (
            "p edge 1 %d\n" % loops
            + "e 1 1 1\n" * loops
            + "s OPTIMAL postman %d\nw 1 %d %s\n"
            % (loops, loops, " ".join(map(str, range(1, loops + 1))))
        )
        text += "".join("y %d 0\n" % v for v in range(1, 2 * loops + 1))
        tests.expect(
            "%d loops at one vertex" % loops, ["check", "postman"], text.encode(), output, status
        )


def words(tests):
    """Words that are no command are answered so, whatever the input is."""
    for line in (
        [],
        ["check"],
        ["check", "perfec"],
        ["perfect", "check"],
        ["check", "perfect", "--brief"],
        ["--help"],
        ["--version"],
        ["check", "--", "perfect"],
        ["check", "matching"],
        ["solve"],
        ["solve", "matching"],
        ["solve", "--", "perfect"],
        ["solve", "--brief"],
        ["solve", "perfect", "--brief", "--brief"],
        ["solve", "perfect", "brief"],
        ["solve", "--brief", "perfect", "--brief"],
    ):
        tests.expect("words " + " ".join(line), line, b"p edge 0 0\n", USAGE, 2)


def examples(tests):
    """The documents in examples/ are accepted; an instance that stands beside one is solved to
    the same weight, and its document accepted."""
    for path in sorted(glob.glob(os.path.join(HERE, "..", "examples", "*.checked"))):
        name, kind = os.path.basename(path), os.path.basename(path).split("-")[0]
        with open(path, "rb") as file:
            whole = file.read()
        tests.expect(name, ["check", kind], whole, "s ACCEPTED\n", 0)
        if os.path.exists(path.replace(".checked", ".dimacs")):
            with open(path.replace(".checked", ".dimacs"), "rb") as file:
                instance = file.read()
            status, output, _ = run(["solve", kind], instance)
            stated = next(line for line in whole.decode().splitlines() if line.startswith("s "))
            tests.compare(name + ", solved", instance, (0, stated), (status, output.split("\n")[0]))
            tests.expect(
                name + ", solved and checked",
                ["check", kind],
                instance + output.encode(),
                "s ACCEPTED\n",
                0,
            )


def stored_documents():
    """The documents in tests/documents: their kinds, names and lines. The first line is a
    comment with the answer."""
    for path in sorted(glob.glob(os.path.join(HERE, "documents", "*", "*.checked"))):
        with open(path, encoding="ascii") as file:
            yield os.path.basename(os.path.dirname(path)), os.path.basename(
                path
            ), file.read().splitlines()


def documents(tests):
    """Documents of each kind: accepted ones, and one for each rule that breaks it."""
    for kind, name, lines in stored_documents():
        answer = lines[0].removeprefix("c expected: ") + "\n"
        tests.expect(
            kind + "/" + name,
            ["check", kind],
            ("\n".join(lines) + "\n").encode(),
            answer,
            0 if answer == "s ACCEPTED\n" else 1,
        )


def changed_documents(tests):
    """Accepted documents with one small change: the program answers as the plain checker does."""
    chance = random.Random(1)
    for kind, name, lines in stored_documents():
        if not name.startswith("accepted"):
            continue
        first = next(place for place, line in enumerate(lines) if line.startswith("s "))
        for turn in range(24):
            text = "\n".join(lines[:first] + mutate.changed(chance, lines[first:])) + "\n"
            status, answer = plain_checker.answer_of(kind, text)
            tests.expect(
                "%s/%s, change %d" % (kind, name, turn),
                ["check", kind],
                text.encode(),
                answer,
                status,
            )


def changed_inputs(tests):
    """Twenty thousand inputs of `check` and `solve` that were changed at random."""
    passed, failed = fuzz.run(PROGRAM, 20_000)
    tests.passed, tests.failed = tests.passed + passed, tests.failed + failed


def long_input(tests):
    """What `solve` takes at most."""
    tests.expect(
        "solve, the longest input",
        ["solve", "perfect"],
        b"\n" * 16_777_216,
        "s MALFORMED HeaderMissing 16777217\n",
        3,
    )
    tests.expect("solve, one byte more", ["solve", "perfect"], b"\n" * 16_777_217, "s TOOLONG\n", 5)


def made_edges(chance, n, count, most, greatest):
    """So many edges on n vertices, of which some have a capacity; parallel ones are among them,
    and in half of the instances loops."""
    if n == 0:
        return []
    loops = 1 if n == 1 else chance.choice((0, 0, 0.2, 0.5))
    pairs = [
        [chance.randint(1, n)] * 2 if chance.random() < loops else chance.sample(range(1, n + 1), 2)
        for _ in range(count)
    ]
    return [
        (
            u,
            v,
            chance.randint(-most, most),
            chance.choice((None, None, chance.randint(0, greatest))),
        )
        for u, v in pairs
    ]


def made_instances():
    """Small instances: a kind, edges, and the value of each vertex."""
    chance = random.Random(2)
    for turn in range(160):
        n = chance.choice((2, 4, 6, 8, 8, 10, 10, 12)) - (turn % 16 == 0)
        yield "perfect", made_edges(
            chance, n, chance.randint(n // 2, 3 * n), chance.choice((0, 0, 1, 9, 10**12)), 1
        ), [0] * n
    for kind in plain_solver.KINDS[1:]:
        for turn in range(80):
            n = chance.choice((0, 1, 2, 3, 4, 5, 6, 7))
            greatest = chance.choice((1, 2, 3))
            edges = made_edges(
                chance,
                n,
                chance.randint(n // 2, 2 * n),
                chance.choice((0, 1, 9, 10**12)),
                greatest,
            )
            values = [chance.randint(0, greatest) for _ in range(n)]
            if turn % 2:  # the degrees of some counts, so that more of the instances have an answer
                values = [0] * n
                for u, v, _, _ in chance.sample(edges, len(edges) // 2):
                    values[u - 1] += 1
                    values[v - 1] += 1
            yield kind, edges, values


def made_joins():
    """Small instances for joins, tours and paths: for tours no weight is below 0, for paths two
    values are odd."""
    chance = random.Random(4)
    for kind in ("tjoin", "postman", "path"):
        for turn in range(120):
            n = (
                chance.choice((0, 1, 2, 3, 4, 5, 6, 7))
                if kind != "path"
                else chance.choice((2, 3, 4, 5, 6, 7))
            )
            edges = made_edges(
                chance, n, chance.randint(n // 2, 2 * n), chance.choice((0, 1, 9, 10**12)), 1
            )
            if kind == "postman" or turn % 3 == 0:
                edges = [(u, v, abs(w), capacity) for u, v, w, capacity in edges]
            if turn % 4 == 1:  # two heaps of vertices, so that more of the instances have no answer
                edges = [edge for edge in edges if (edge[0] + edge[1]) % 2 == 0]
            values = [2 * chance.randint(0, 1) for _ in range(n)]
            for v in chance.sample(range(n), 2 if kind == "path" else chance.randint(0, n)):
                values[v] += 1
            yield kind, edges, values


def made_bounds():
    """Small instances for degrees between two bounds: in the second half these are near the
    degrees of some counts."""
    chance = random.Random(7)
    for turn in range(120):
        n = chance.choice((0, 1, 2, 3, 3, 4, 4, 5))
        edges = made_edges(
            chance, n, chance.randint(n // 2, 2 * n), chance.choice((0, 1, 9, 10**12)), 2
        )
        degrees = [chance.randint(0, 2) for _ in range(n)]
        if turn >= 60:
            used = [
                end
                for u, v, _, capacity in chance.sample(edges, len(edges) // 2)
                if capacity != 0
                for end in (u, v)
            ]
            degrees = [used.count(v) for v in range(1, n + 1)]
        slack = chance.choice((0, 1, 2))
        yield "interval", edges, [
            (max(0, d - chance.randint(0, slack)), d + chance.randint(0, slack)) for d in degrees
        ]


def made_parity_paths():
    """Small instances for paths of an odd and of an even number of edges: no weight is below 0,
    and in some all walks between two vertices have the same parity."""
    chance = random.Random(8)
    for kind in plain_solver.PARITIES:
        for turn in range(80):
            n = chance.choice((2, 3, 4, 5, 6, 7))
            edges = made_edges(
                chance, n, chance.randint(n // 2, 2 * n), chance.choice((0, 1, 9, 10**12)), 1
            )
            if turn % 4 == 1:
                edges = [edge for edge in edges if (edge[0] + edge[1]) % 2 == 1]
            values = [2 * chance.randint(0, 1) for _ in range(n)]
            for v in chance.sample(range(n), 2):
                values[v] += 1
            yield kind, [(u, v, abs(w), capacity) for u, v, w, capacity in edges], values


def made_bottlenecks():
    """Small instances for the lightest heaviest edge, with few and with many different weights."""
    chance = random.Random(9)
    for turn in range(120):
        n = chance.choice((0, 2, 4, 6, 6, 8, 8, 10)) + (turn % 16 == 0)
        yield "bottleneck", made_edges(
            chance, n, chance.randint(n // 2, 3 * n), chance.choice((0, 1, 3, 9, 10**12)), 1
        ), [0] * n


def made_decompositions():
    """Small instances for the vertices that greatest matchings miss: some have few edges, so
    that many vertices are missed."""
    chance = random.Random(10)
    for turn in range(160):
        n = chance.choice((0, 1, 2, 3, 4, 5, 6, 7, 8, 9))
        yield "gallai", made_edges(
            chance,
            n,
            chance.randint(0, chance.choice((n, 2 * n, 3 * n))),
            chance.choice((0, 10**12)),
            1,
        ), [0] * n


def named_once(document):
    """Whether each vertex and each set is an item of one set at most, and each set comes after
    those that it refers to."""
    items = [line.split()[3:] for line in document.splitlines() if line.startswith("z ")]
    named = [item for one in items for item in one]
    return len(set(named)) == len(named) and all(
        int(item[1:]) <= place
        for place, one in enumerate(items)
        for item in one
        if item.startswith("@")
    )


def solved(tests):
    """What `solve` writes for an instance is as good as what trying all counts finds, and
    `check` accepts it."""
    made_all = (
        made_instances(),
        made_joins(),
        made_bounds(),
        made_parity_paths(),
        made_bottlenecks(),
        made_decompositions(),
    )
    for turn, (kind, edges, values) in enumerate(itertools.chain(*made_all)):
        name = "made instance %d, %s" % (turn, kind)
        text = plain_solver.instance(edges, values)
        wanted = plain_solver.first_lines(kind, edges, values)
        status, output, _ = run(["solve", kind], text.encode())
        tests.compare(name, text, (0, wanted), (status, output.split("\n")[: len(wanted)]))
        tests.expect(
            name + ", checked", ["check", kind], (text + output).encode(), "s ACCEPTED\n", 0
        )
        tests.compare(name + ", its sets", output, True, named_once(output))
        tests.compare(
            name + ", sets beside it",
            text,
            plain_solver.set_lines(kind, edges, values),
            [line for line in output.splitlines() if kind == "gallai" and line[0] in "du"],
        )
        kept = (
            "s"
            if wanted[0].startswith("s NONCONSERVATIVE")
            else "sxdu"
            if kind == "gallai"
            else "swx"
        )
        brief = "".join(line + "\n" for line in output.splitlines() if line[0] in kept)
        tests.expect(name + ", briefly", ["solve", kind, "--brief"], text.encode(), brief, 0)


def large_instances(tests):
    """Documents for larger instances, with nested sets among them, are accepted."""
    chance = random.Random(3)
    for kind, n, m, most in (
        ("perfect", 60, 200, 10),
        ("perfect", 100, 300, 10**12),
        ("perfect", 200, 400, 3),
        ("perfect", 300, 3000, 1000),
        ("match", 101, 400, 10**12),
        ("bmatch", 40, 120, 100),
        ("capmatch", 20, 60, 100),
        ("ffactor", 40, 120, 100),
        ("tjoin", 100, 250, 100),
        ("bottleneck", 300, 3000, 10**12),
        ("gallai", 300, 360, 10**12),
        ("gallai", 301, 900, 1),
    ):
        order = chance.sample(range(1, n + 1), n)
        pairs = list(zip(order[::2], order[1::2])) + [
            tuple(chance.sample(range(1, n + 1), 2)) for _ in range(m - n // 2 - n // 10)
        ]
        pairs += [(v, v) for v in order[: n // 10]]
        edges = [(u, v, chance.randint(-most, most), 3) for u, v in pairs]
        values = [0] * n
        for u, v in pairs[::2]:
            values[u - 1] += 1
            values[v - 1] += 1
        text = plain_solver.instance(edges, values)
        status, output, _ = run(["solve", kind], text.encode())
        name = "%s of %d vertices and %d edges" % (kind, n, m)
        tests.compare(name, text, (0, "s OPTIMAL " + kind), (status, " ".join(output.split()[:3])))
        tests.compare(name + ", its sets", output, True, named_once(output))
        tests.expect(
            name + ", checked", ["check", kind], (text + output).encode(), "s ACCEPTED\n", 0
        )


def trials(tests):
    """Small made instances are told as their rule, trying all and the plain graph of
    certificates say."""
    for kind in made.KINDS:
        for start, (n, m) in itertools.product(
            (0, 1, 12, 2**64 - 1),
            ((0, 0), (1, 0), (2, 0), (2, 1), (2, 3), (3, 2), (4, 6), (5, 8), (6, 9), (8, 13)),
        ):
            if n >= 2 or kind != "path":
                output, status = made.answer_of(kind, start, n, m)
                words = ["trial", kind, str(start), str(n), str(m)]
                tests.expect(" ".join(words), words, b"", output, status)


def worked_trials(tests):
    """The generator's first states from 1, and made instances that were worked out by hand."""
    draws, states = made.Draws(1), []
    for _ in range(4):
        draws.draw(2001)
        states.append(draws.state)
    tests.compare(
        "the generator's states from 1",
        "",
        [7806831264735756412, 9396908728118811419, 11960119808228829710, 7062582979898595269],
        states,
    )
    tests.compare("its first draw below 2001", "", 584, made.Draws(1).draw(2001))
    for words, output in (
        ("perfect 1 2 1", "g 2 1\ns OPTIMAL perfect -416\ns ACCEPTED\n"),
        ("match 1 2 2", "g 4 6\ns OPTIMAL match 980\ns ACCEPTED\n"),
        ("postman 1 2 0", "g 0 0\ns OPTIMAL postman 0\ns ACCEPTED\n"),
        ("path 1 2 0", "g 2 0\ns INFEASIBLE path\ns ACCEPTED\n"),
    ):
        tests.expect("trial " + words, ["trial"] + words.split(), b"", output, 0)


def large_trials(tests):
    """What is stated of a larger made instance is what `solve` states of it as a text."""
    for kind, start, n, m in (
        ("perfect", 5, 100, 400),
        ("perfect", 7, 300, 3000),
        ("match", 5, 60, 150),
        ("bmatch", 5, 30, 90),
        ("capmatch", 5, 14, 40),
        ("ffactor", 5, 20, 60),
        ("tjoin", 5, 40, 100),
        ("postman", 5, 40, 80),
        ("postman", 7, 100, 150),
        ("path", 5, 30, 80),
    ):
        edges, values = made.made(kind, start, n, m)
        text = plain_solver.instance(edges, values)
        _, solved, _ = run(["solve", kind], text.encode())
        words = ["trial", kind, str(start), str(n), str(m)]
        size = "g %d %d" % made.graph_size(kind, edges, values)
        tests.expect(
            " ".join(words),
            words,
            b"",
            "\n".join([size, solved.split("\n")[0], "s ACCEPTED"]) + "\n",
            0,
        )


if sys.argv[1:] == ["--dist"]:
    sys.exit(from_dist.run())
# A shell has what it runs in the background ignore these, and whatever that starts would too: tests
# that stop a build want them as they are in the foreground.
signal.signal(signal.SIGINT, signal.default_int_handler)
signal.signal(signal.SIGHUP, signal.SIG_DFL)
PROGRAM = os.path.abspath(sys.argv[1])
TESTS = Tests()
for part in (
    cases,
    cut_files,
    hostile_input,
    hostile_documents,
    words,
    examples,
    documents,
    changed_documents,
    changed_inputs,
    long_input,
    solved,
    large_instances,
    trials,
    worked_trials,
    large_trials,
):
    part(TESTS)
pages.check(TESTS)
written_pages.check(TESTS)
clause_tools.check(TESTS)
plain_program.check(TESTS)
process_ends.check(PROGRAM, TESTS)
refused_memory.check(PROGRAM, TESTS)
asked_room.check(PROGRAM, TESTS)
special.check(PROGRAM, TESTS)
launcher.check(TESTS)
timed_parts.check(TESTS)
builds.check(TESTS)
if sys.argv[2:] == ["--after-gate"]:
    builds.by_the_kit(TESTS)
library_builds.check(TESTS)
c_library.check(PROGRAM, TESTS)
decompositions.check(TESTS)
python_package.check(PROGRAM, TESTS)
release.check(PROGRAM, TESTS)
dist_program.check(TESTS)
dist.check(PROGRAM, TESTS)
print("%d passed, %d failed, %d skipped" % (TESTS.passed, TESTS.failed, TESTS.skipped))
sys.exit(0 if TESTS.failed == 0 and TESTS.passed > 0 else 1)
