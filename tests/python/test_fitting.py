"""Answers of files: put on a graph only where they can be answers of it."""
import csv
import io
import os
import subprocess
import sys
import tempfile
import unittest

import blossom
from blossom.fitting import fitted
from support import TRIANGLES, instances
from test_answers import outcome

SQUARE = [("a", "b", 4), ("b", "c", 4), ("c", "d", 4), ("a", "d", 4), ("a", "c", 5)]
TOUR = "s OPTIMAL postman 26\nw 1 6 1 2 3 4 5 5\n"
MISFITS = (
    ("a tour", SQUARE, "postman", {}, TOUR, None),
    (
        "a step from elsewhere",
        SQUARE,
        "postman",
        {},
        "s OPTIMAL postman 26\nw 1 6 2 1 3 4 5 5\n",
        r"step 1 uses edge \('b', 'c'\), which does not meet node 'a'",
    ),
    ("another weight", SQUARE, "postman", {}, TOUR.replace("26", "27"), "stated weight 27, .* 26"),
    (
        "an edge left out",
        SQUARE,
        "postman",
        {},
        "s OPTIMAL postman 16\nw 1 4 1 2 3 4\n",
        r"omits edge \('a', 'c'\)",
    ),
    ("no walk at all", SQUARE, "postman", {}, "s OPTIMAL postman 0\n", "omits edge"),
    (
        "a tour that ends elsewhere",
        SQUARE,
        "postman",
        {},
        "s OPTIMAL postman 21\nw 1 5 1 2 3 4 5\n",
        "not closed: it ends at 'c'",
    ),
    ("a matching", SQUARE, "perfect", {}, "s OPTIMAL perfect 8\nx 1 1\nx 3 1\n", None),
    (
        "a node met twice",
        SQUARE,
        "perfect",
        {},
        "s OPTIMAL perfect 8\nx 1 1\nx 2 1\n",
        "node 'b' has degree 2",
    ),
    (
        "a node alone",
        SQUARE,
        "perfect",
        {},
        "s OPTIMAL perfect 4\nx 1 1\n",
        "node 'c' has degree 0",
    ),
    (
        "an edge twice",
        [("a", "b", 4)],
        "perfect",
        {},
        "s OPTIMAL perfect 8\nx 1 2\n",
        r"edge \('a', 'b'\) is used 2 times, above its capacity 1",
    ),
    ("some alone", SQUARE, "match", {}, "s OPTIMAL match 5\nx 5 1\n", None),
    (
        "met twice",
        SQUARE,
        "match",
        {},
        "s OPTIMAL match 9\nx 1 1\nx 5 1\n",
        "node 'a' has degree 2",
    ),
    (
        "values",
        SQUARE,
        "bmatch",
        {"degrees": {"c": 3, "d": 3}},
        "s OPTIMAL bmatch 16\nx 1 1\nx 3 3\n",
        None,
    ),
    (
        "other values",
        SQUARE,
        "bmatch",
        {},
        "s OPTIMAL bmatch 16\nx 1 1\nx 3 3\n",
        "node 'c' has degree 3",
    ),
    (
        "over a capacity",
        [("a", "b", 1, 1)],
        "capmatch",
        {"degrees": {"a": 2, "b": 2}},
        "s OPTIMAL capmatch 2\nx 1 2\n",
        "2 times",
    ),
    (
        "twice in a factor",
        [("a", "b", 1)],
        "ffactor",
        {"degrees": {"a": 2, "b": 2}},
        "s OPTIMAL ffactor 2\nx 1 2\n",
        "2 times",
    ),
    (
        "a loop meets its node twice",
        [("a", "a", 1), ("a", "b", 2)],
        "bmatch",
        {"degrees": {"a": 3}},
        "s OPTIMAL bmatch 3\nx 1 1\nx 2 1\n",
        None,
    ),
    (
        "a loop in a matching",
        [("a", "a", 1), ("a", "b", 2)],
        "match",
        {},
        "s OPTIMAL match 1\nx 1 1\n",
        "node 'a' has degree 2",
    ),
    ("a tour along a loop", [("a", "a", 1)], "postman", {}, "s OPTIMAL postman 1\nw 1 1 1\n", None),
    (
        "a path with a loop",
        [("a", "a", 1), ("a", "b", 2)],
        "path",
        {"source": "a", "target": "b"},
        "s OPTIMAL path 3\nw 1 2 1 2\n",
        "simple path from 'a' to 'b'",
    ),
    (
        "a join",
        SQUARE,
        "tjoin",
        {"terminals": ["a", "c"]},
        "s OPTIMAL tjoin 8\nx 1 1\nx 2 1\n",
        None,
    ),
    (
        "a join of others",
        SQUARE,
        "tjoin",
        {"terminals": ["a", "b"]},
        "s OPTIMAL tjoin 8\nx 1 1\nx 2 1\n",
        "node 'b' has degree 2, expected an odd one",
    ),
    (
        "a path",
        SQUARE,
        "path",
        {"source": "c", "target": "a"},
        "s OPTIMAL path 8\nw 1 2 1 2\n",
        None,
    ),
    (
        "a path to elsewhere",
        SQUARE,
        "path",
        {"source": "a", "target": "d"},
        "s OPTIMAL path 8\nw 1 2 1 2\n",
        "simple path from 'a' to 'd'",
    ),
    (
        "a path with a circuit",
        SQUARE,
        "path",
        {"source": "a", "target": "b"},
        "s OPTIMAL path 17\nw 1 4 4 3 5 1\n",
        "simple path from 'a' to 'b'",
    ),
    (
        "a cover",
        SQUARE,
        "interval",
        {"lower": 1, "default_capacity": 1},
        "s OPTIMAL interval 8\nx 1 1\nx 3 1\n",
        None,
    ),
    (
        "a node that isn't covered",
        SQUARE,
        "interval",
        {"lower": 1, "default_capacity": 1},
        "s OPTIMAL interval 9\nx 1 1\nx 5 1\n",
        "node 'd' has degree 0, expected 1 to 2",
    ),
    (
        "less than a bound",
        SQUARE,
        "interval",
        {"lower": {"c": 2}, "default_capacity": 1},
        "s OPTIMAL interval 4\nx 3 1\n",
        "node 'c' has degree 1, expected 2 to 3",
    ),
    (
        "more than a bound",
        SQUARE,
        "interval",
        {"upper": 1},
        "s OPTIMAL interval 8\nx 1 1\nx 2 1\n",
        "node 'b' has degree 2",
    ),
    ("between bounds", SQUARE, "interval", {"upper": 4}, "s OPTIMAL interval 12\nx 1 3\n", None),
    (
        "more than the most",
        SQUARE,
        "interval",
        {"upper": 4, "default_capacity": 2},
        "s OPTIMAL interval 12\nx 1 3\n",
        r"edge \('a', 'b'\) is used 3 times, above its capacity 2",
    ),
    (
        "a loop over a bound",
        [("a", "a", 1)],
        "interval",
        {"upper": 1},
        "s OPTIMAL interval 1\nx 1 1\n",
        "node 'a' has degree 2",
    ),
    (
        "an odd path",
        SQUARE,
        "oddpath",
        {"source": "a", "target": "b"},
        "s OPTIMAL oddpath 12\nw 1 3 4 3 2\n",
        None,
    ),
    (
        "an odd path of two edges",
        SQUARE,
        "oddpath",
        {"source": "a", "target": "c"},
        "s OPTIMAL oddpath 8\nw 1 2 1 2\n",
        "path with 2 edges: expected an odd",
    ),
    (
        "an even path",
        SQUARE,
        "evenpath",
        {"source": "c", "target": "a"},
        "s OPTIMAL evenpath 8\nw 1 2 1 2\n",
        None,
    ),
    (
        "an even path of one edge",
        SQUARE,
        "evenpath",
        {"source": "a", "target": "c"},
        "s OPTIMAL evenpath 5\nw 1 1 5\n",
        "path with 1 edges: expected an even",
    ),
    (
        "an odd path to elsewhere",
        SQUARE,
        "oddpath",
        {"source": "a", "target": "c"},
        "s OPTIMAL oddpath 4\nw 1 1 1\n",
        "simple path from 'a' to 'c'",
    ),
    (
        "an even path that comes back",
        SQUARE,
        "evenpath",
        {"source": "a", "target": "b"},
        "s OPTIMAL evenpath 17\nw 1 4 4 3 5 1\n",
        "simple path from 'a' to 'b'",
    ),
    ("a bottleneck", SQUARE, "bottleneck", {}, "s OPTIMAL bottleneck 4\nx 1 1\nx 3 1\nu 0\n", None),
    (
        "the heaviest edge is what weighs",
        [("a", "b", 4), ("c", "d", 7)],
        "bottleneck",
        {},
        "s OPTIMAL bottleneck 7\nx 1 1\nx 2 1\nu 0\n",
        None,
    ),
    (
        "the sum of a bottleneck",
        SQUARE,
        "bottleneck",
        {},
        "s OPTIMAL bottleneck 8\nx 1 1\nx 3 1\n",
        "stated weight 8, .* weigh 4 in this graph",
    ),
    (
        "the lightest of a bottleneck",
        [("a", "b", 4), ("c", "d", 7)],
        "bottleneck",
        {},
        "s OPTIMAL bottleneck 4\nx 1 1\nx 2 1\n",
        "stated weight 4, .* weigh 7 in this graph",
    ),
    (
        "a bottleneck below 0",
        [("a", "b", -4), ("c", "d", -7)],
        "bottleneck",
        {},
        "s OPTIMAL bottleneck -4\nx 1 1\nx 2 1\nu 0\n",
        None,
    ),
    (
        "a bottleneck that meets a node twice",
        SQUARE,
        "bottleneck",
        {},
        "s OPTIMAL bottleneck 4\nx 1 1\nx 2 1\n",
        "node 'b' has degree 2",
    ),
    (
        "a bottleneck that leaves a node",
        SQUARE,
        "bottleneck",
        {},
        "s OPTIMAL bottleneck 4\nx 1 1\n",
        "node 'c' has degree 0",
    ),
    (
        "a bottleneck of a loop",
        [("a", "a", 1), ("a", "b", 2)],
        "bottleneck",
        {},
        "s OPTIMAL bottleneck 1\nx 1 1\n",
        "node 'a' has degree 2",
    ),
    ("a bottleneck without nodes", [], "bottleneck", {}, "s OPTIMAL bottleneck 0\n", None),
    (
        "a weight without nodes",
        [],
        "bottleneck",
        {},
        "s OPTIMAL bottleneck 1\n",
        "weigh 0 in this graph",
    ),
    (
        "a greatest matching",
        SQUARE,
        "gallai",
        {},
        "s OPTIMAL gallai 2\nx 1 1\nx 3 1\nd 0\nu 0\n",
        None,
    ),
    (
        "the sum of its weights",
        SQUARE,
        "gallai",
        {},
        "s OPTIMAL gallai 8\nx 1 1\nx 3 1\n",
        "stated size 8, actual 2",
    ),
    (
        "a matching that meets a node twice",
        SQUARE,
        "gallai",
        {},
        "s OPTIMAL gallai 2\nx 1 1\nx 2 1\n",
        "node 'b' has degree 2",
    ),
    ("a matching that leaves a node", SQUARE, "gallai", {}, "s OPTIMAL gallai 1\nx 1 1\n", None),
    (
        "a barrier of a larger graph",
        SQUARE,
        "bottleneck",
        {},
        "s OPTIMAL bottleneck 4\nx 1 1\nx 3 1\nu 1 5\n",
        "refers to node 5",
    ),
    ("another kind", SQUARE, "perfect", {}, TOUR, "got postman"),
    (
        "an edge that isn't there",
        SQUARE[:2],
        "match",
        {},
        "s OPTIMAL match 4\nx 3 1\n",
        "refers to edge 3",
    ),
    ("a text", SQUARE, "perfect", {}, "dear all,\n", "has no answer"),
    ("nothing", SQUARE, "perfect", {}, "", "has no answer"),
    ("an instance alone", SQUARE, "perfect", {}, "p edge 4 1\ne 1 2 4\n", "no answer"),
)


class Fits(unittest.TestCase):
    def test_what_fits_and_what_does_not(self):
        for name, edges, kind, words, text, said in MISFITS:
            of = blossom.Instance.from_graph(edges, kind, **words)
            with self.subTest(name):
                if said is None:
                    self.assertEqual(fitted(of, text.encode()).certificate.text, text.encode())
                    continue
                with self.assertRaisesRegex(blossom.GraphError, said):
                    fitted(of, text.encode())

    def test_answers_of_the_program_fit(self):
        for kind in blossom.KINDS:
            for edges, words in instances(kind, 10, seed=9):
                certificate = outcome(edges, kind, words)
                with self.subTest(kind=kind, edges=edges, words=words):
                    if certificate.status == "optimal":
                        answer = fitted(certificate.instance, certificate.text)
                        self.assertEqual(answer.weight, certificate.document.weight)

    def test_a_file_with_its_instance(self):
        certificate = blossom.min_weight_perfect_matching(TRIANGLES).certificate
        whole = io.BytesIO()
        certificate.write(whole)
        self.assertEqual(fitted(certificate.instance, whole.getvalue()).weight, 12)
        other = blossom.Instance.from_graph(TRIANGLES[::-1], "perfect")
        with self.assertRaisesRegex(
            blossom.GraphError, "checksum " + certificate.instance.checksum
        ):
            fitted(other, whole.getvalue())
        without = b"\n".join(
            line for line in whole.getvalue().splitlines() if not line.startswith(b"c")
        )
        self.assertEqual(fitted(certificate.instance, without).weight, 12)
        with self.assertRaisesRegex(blossom.GraphError, "the instance in the file differs"):
            fitted(other, without)

    def test_checksums_are_those_of_what_the_program_reads(self):
        one, other = (
            blossom.Instance.from_graph([("a", "b", weight)], "perfect") for weight in (1, 2)
        )
        self.assertEqual(len(one.checksum), 64)
        self.assertNotEqual(one.checksum, other.checksum)
        self.assertEqual(one.checksum, blossom.Instance.from_graph([("x", "y")], "match").checksum)


class Command(unittest.TestCase):
    def convert(self, *words):
        return subprocess.run(
            [sys.executable, "-m", "blossom", "convert", *words], capture_output=True, text=True
        )

    def test_streets_in_another_order_get_no_tour(self):
        lines = ["%s,%s,%d" % street for street in SQUARE]
        with tempfile.TemporaryDirectory() as room:
            path = {name: os.path.join(room, name) for name in ("a.csv", "b.csv", "t.txt", "o.csv")}
            for name, order in (("a.csv", lines), ("b.csv", [lines[1], lines[0], *lines[2:]])):
                with open(path[name], "w", encoding="utf-8") as file:
                    file.write("\n".join(["u,v,weight", *order]) + "\n")
            with open(path["t.txt"], "w", encoding="utf-8") as file:
                file.write(TOUR)
            words = ["--kind", "postman", "--answer", path["t.txt"], "-o", path["o.csv"]]
            done = self.convert(path["b.csv"], *words)
            self.assertEqual((done.returncode, os.path.exists(path["o.csv"])), (1, False))
            self.assertIn("to this graph in another order: step 2 uses edge", done.stderr)
            done = self.convert(path["a.csv"], *words)
            not_judged = "not judged: %s has no certificate\n" % path["t.txt"]
            self.assertEqual((done.returncode, done.stderr), (0, not_judged))
            with open(path["o.csv"], encoding="utf-8", newline="") as file:
                self.assertEqual([row["u"] for row in csv.DictReader(file)], list("abcdac"))
