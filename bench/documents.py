#!/usr/bin/env python3
"""Reading documents, against a plain reader of the same bytes: the document is of another kind
than the command, so that the judge stops after it was read. Writing documents, against a plain
writer: what a copy of a document takes more than reading it. Sets within each other: the whole
solution beside LEMON's matching of the same graph (where it is installed), how long its document
is with references and with all members, and the time of `check` beside that of `solve`; and as
many sets as a graph of certificates can hold, judged. Paths from all vertices: solving, writing
and judging beside a plain copy of the document."""
import random
import subprocess
import sys

import families
from solve import processor_time, searched_graph, written
from timing import PARTS, PROGRAM, compiled, report, seconds

COPY = [PARTS, "document"]


def sets_of_half(head, size):
    """A document of this many bytes, nearly all of it members of sets."""
    draw = random.Random(5)
    members = sorted(draw.sample(range(1, 4097), 2049))
    line = "z 7 2049 " + " ".join(map(str, members)) + "\n"
    return (head + line * (size // len(line))).encode()


def report_writing(name, text, most):
    """Prints the ratio of writing a document to writing it plainly, and says whether it is
    within the bound."""
    plain = compiled("plain_copy")
    own_time = seconds(COPY, text, text) - seconds(COPY + ["read"], text)
    plain_time = seconds([plain], text, text) - seconds([plain, "read"], text)
    ratio = own_time / plain_time
    print(
        "%-40s %8.1f MiB  plain %7.1f ms  blossom %7.1f ms  ratio %.2f (at most %g) %s"
        % (
            "writing a document, " + name,
            len(text) / 2**20,
            plain_time * 1000,
            own_time * 1000,
            ratio,
            most,
            "ok" if ratio <= most else "TOO SLOW",
        )
    )
    return ratio <= most


def plain_size(document):
    """How long the document would be with all members of its sets written out."""
    length, spelled = 0, []
    for line in document.splitlines(keepends=True):
        fields = line.split()
        if fields[0] != "z":
            length += len(line)
            continue
        items = fields[3:]
        inner = [spelled[int(item[1:]) - 1] for item in items if item.startswith("@")]
        vertices = [item for item in items if not item.startswith("@")]
        count = len(vertices) + sum(one[0] for one in inner)
        letters = sum(len(item) + 1 for item in vertices) + sum(one[1] for one in inner)
        spelled.append((count, letters))
        length += len("z %s %d\n" % (fields[1], count)) + letters
    return length


def least(words, path, runs=4):
    return min(processor_time(words, path)[0] for _ in range(runs))


def report_nested(name, kind, given, most):
    """Solves an instance and judges its document. Says whether `check` took no longer than
    `solve`, and `solve` no more than so many times as long as LEMON, where that is compared."""
    path = written("instance", given)
    with open(path, "rb") as file:
        document = subprocess.run(
            [PROGRAM, "solve", kind], stdin=file, capture_output=True, check=True
        ).stdout
    solving, briefly = least([PROGRAM, "solve", kind], path), least(
        [PROGRAM, "solve", kind, "--brief"], path
    )
    checking = least([PROGRAM, "check", kind], written("judged", given + document))
    text = document.decode()
    row = (
        "%-44s %5d sets  %8.1f KiB, with members %9.1f KiB  solve %7.1f ms, brief %7.1f ms, check %7.1f ms"
        % (
            name,
            text.count("\nz "),
            len(text) / 1024,
            plain_size(text) / 1024,
            solving * 1000,
            briefly * 1000,
            checking * 1000,
        )
    )
    within = checking <= solving
    if most is not None and LEMON is not None:
        peer = least([LEMON], written("graph", searched_graph(kind, given)))
        row += "  LEMON %7.1f ms, ratio %.2f (at most %g)" % (peer * 1000, solving / peer, most)
        within = within and solving <= most * peer
    print(row, "ok" if within else "TOO SLOW", flush=True)
    return within


def report_paths(name, given):
    """Solves an instance of `gallai`, writes its document by itself, and judges it: each at most
    five times as long as a plain copy of that document."""
    path = written("instance", given)
    with open(path, "rb") as file:
        document = subprocess.run(
            [PROGRAM, "solve", "gallai"], stdin=file, capture_output=True, check=True
        ).stdout
    edges = sum(int(line.split()[2]) for line in document.splitlines() if line.startswith(b"r "))
    print("%-40s %8d edges of paths, %.2f n^2" % (name, edges, edges / int(given.split()[2]) ** 2))
    yield report_writing("paths", document, 5)
    plain = seconds([compiled("plain_copy")], document, document)
    for what, words, text, wanted in (
        ("solved", "solve", given, document),
        ("judged", "check", given + document, b"s ACCEPTED\n"),
    ):
        own = seconds([PROGRAM, words, "gallai"], text, wanted)
        print(
            "%-40s %8.1f MiB  copy  %7.1f ms  blossom %7.1f ms  ratio %.2f (at most 5) %s"
            % (
                name + ", " + what,
                len(text) / 2**20,
                plain * 1000,
                own * 1000,
                own / plain,
                "ok" if own <= 5 * plain else "TOO SLOW",
            )
        )
        yield own <= 5 * plain


def most_sets():
    """A join on a row of 8,190 edges, whose graph of certificates has 16,380 vertices, and a
    document with a chain of 8,189 sets."""
    edges = 8190
    size = 2 * edges
    lines = ["p edge 4096 %d" % edges]
    lines += ["e %d %d 1000000" % (k // 2 % 4095 + 1, k // 2 % 4095 + 2) for k in range(edges)]
    lines += ["s OPTIMAL tjoin 0"] + ["y %d 0" % v for v in range(1, size + 1)] + ["z 1 3 1 2 3"]
    lines += ["z 1 3 %d %d @%d" % (v, v + 1, v // 2 - 1) for v in range(4, size, 2)]
    return ("\n".join(lines) + "\n").encode(), b"s REJECTED Slack %d\n" % (edges + 2)


def lemon():
    """LEMON's program, or None where its headers aren't installed."""
    try:
        return compiled("lemon_matching")
    except subprocess.CalledProcessError:
        print("LEMON isn't installed (liblemon-dev): nothing is compared with it")
        return None


SIZE = 48 * 2**20
LEMON = lemon()
BIG = 10**9
good = [
    report(
        "document of 48 MiB, sets",
        ["check", "perfect"],
        sets_of_half("p edge 0 0\ns OPTIMAL match 0\n", SIZE),
        b"s REJECTED KindDiffers 2\n",
        3,
    ),
    report_writing("sets", sets_of_half("s OPTIMAL match 0\n", SIZE), 3),
    report_nested("two chains of 1,000 sets", "perfect", families.two_nests(1000, BIG), 1.2),
    report_nested("two chains of 2,000 sets", "perfect", families.two_nests(2000, BIG), 1.2),
    report_nested(
        "random, 4,096 vertices, 65,536 edges",
        "perfect",
        families.random_graph(4096, 65536, BIG),
        None,
    ),
    report_nested(
        "4,096 points of value 4", "bmatch", families.points_of_value(4096, 8, 4, 10**6), None
    ),
    report("a chain of 8,189 sets, judged", ["check", "tjoin"], *most_sets(), 8),
    *report_paths("an odd circuit of 4,095", families.odd_circuit(4095)),
    *report_paths("4,095 in nested triangles", families.nested_triangles(4095)),
]
sys.exit(0 if all(good) else 1)
