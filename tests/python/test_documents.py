"""Documents as numbers: what is read of each line, and what is no document."""
import unittest

import blossom
from blossom.answers import answer_of, verdict_of
from blossom.documents import read, spelled
from support import StandIn, TRIANGLES

PAIR = [("a", "b", 5)]
PATH = [("a", "b", 1), ("b", "c", 1)]
READ = (
    (
        "an answer",
        "s OPTIMAL perfect 12\nx 1 1\nx 5 2\ny 1 -3\ny 2 4\nz 9 3 1 2 3\n",
        dict(
            status="optimal",
            kind="perfect",
            weight=12,
            counts={1: 1, 5: 2},
            duals={1: -3, 2: 4},
            sets=[(9, [1, 2, 3])],
        ),
    ),
    (
        "sets within sets",
        "s OPTIMAL perfect 3\nz 9 3 1 2 3\nz 4 3 4 5 @1\nz 1 3 6 7 @02\n",
        dict(
            sets=[(9, [1, 2, 3]), (4, [1, 2, 3, 4, 5]), (1, [1, 2, 3, 4, 5, 6, 7])],
            set_lines=[(9, [1, 2, 3], []), (4, [4, 5], [1]), (1, [6, 7], [2])],
        ),
    ),
    ("a walk", "s OPTIMAL postman 4\nw 2 3 1 2 1\n", dict(walk=(2, [1, 2, 1]), weight=4)),
    ("a barrier", "s INFEASIBLE perfect\nu 1 4\n", dict(status="infeasible", barrier=[4])),
    ("an empty barrier", "s INFEASIBLE bmatch\nu 0\n", dict(barrier=[])),
    ("an odd part", "s INFEASIBLE tjoin\nt 2 1 3\n", dict(odd_part=[1, 3], split_part=None)),
    ("a split part", "s INFEASIBLE postman\nq 2 1 3\n", dict(split_part=[1, 3], odd_part=None)),
    ("a circuit", "s NONCONSERVATIVE path\nw 1 2 1 2\n", dict(walk=(1, [1, 2]), weight=None)),
    (
        "uses between bounds",
        "s OPTIMAL interval -4\nx 1 2\nx 3 1\ny 1 0\n",
        dict(kind="interval", weight=-4, counts={1: 2, 3: 1}, walk=None, duals={1: 0}),
    ),
    (
        "an odd path",
        "s OPTIMAL oddpath 4\nw 2 3 1 2 3\ny 1 4\nz 2 3 1 2 3\n",
        dict(kind="oddpath", walk=(2, [1, 2, 3]), counts={}, duals={1: 4}, sets=[(2, [1, 2, 3])]),
    ),
    ("an even path", "s OPTIMAL evenpath 4\nw 2 2 1 2\n", dict(walk=(2, [1, 2]), weight=4)),
    (
        "a barrier of an even path",
        "s INFEASIBLE evenpath\nu 1 4\n",
        dict(status="infeasible", barrier=[4], odd_part=None),
    ),
    ("a barrier between bounds", "s INFEASIBLE interval\nu 2 1 4\n", dict(barrier=[1, 4])),
    (
        "a bottleneck",
        "s OPTIMAL bottleneck 6\nx 3 1\nx 4 1\nu 2 1 7\n",
        dict(
            status="optimal",
            kind="bottleneck",
            weight=6,
            counts={3: 1, 4: 1},
            barrier=[1, 7],
            duals={},
            sets=[],
            odd_part=None,
        ),
    ),
    (
        "a bottleneck whose barrier is empty",
        "s OPTIMAL bottleneck -6\nx 3 1\nu 0\n",
        dict(weight=-6, barrier=[]),
    ),
    (
        "a bottleneck without nodes",
        "s OPTIMAL bottleneck 0\n",
        dict(weight=0, counts={}, barrier=None),
    ),
    (
        "a barrier of all edges",
        "s INFEASIBLE bottleneck\nu 1 4\n",
        dict(status="infeasible", weight=None, counts={}, barrier=[4]),
    ),
    (
        "sets beside a greatest matching",
        "s OPTIMAL gallai 1\nx 1 1\nd 2 1 3\nu 1 2\nr 1 2 1 2\nr 3 0\n",
        dict(
            kind="gallai",
            weight=1,
            counts={1: 1},
            outer=[1, 3],
            barrier=[2],
            paths={1: [1, 2], 3: []},
            duals={},
            sets=[],
        ),
    ),
    ("sets in brief", "s OPTIMAL gallai 1\nx 1 1\nd 2 1 3\nu 1 2\n", dict(outer=[1, 3], paths={})),
    ("empty sets", "s OPTIMAL gallai 1\nx 1 1\nd 0\nu 0\n", dict(outer=[], barrier=[], paths={})),
    (
        "comments, blanks, returns",
        "c hello\r\n\n  s  OPTIMAL\tmatch 0 \r\ncx 1 1\n",
        dict(kind="match", counts={}),
    ),
)
REFUSED = (
    ("no text", ""),
    ("comments alone", "c s OPTIMAL perfect 1\n"),
    ("no first line", "x 1 1\n"),
    ("a second s line", "s OPTIMAL perfect 5\nx 1 1\ns OPTIMAL perfect 5\n"),
    ("another status", "s BEST perfect 5\n"),
    ("no weight", "s OPTIMAL perfect\n"),
    ("a weight too many", "s INFEASIBLE perfect 5\n"),
    ("a weight twice", "s OPTIMAL perfect 5 5\n"),
    ("no number", "s OPTIMAL perfect 5\nx 1 one\n"),
    ("an unknown letter", "s OPTIMAL perfect 5\nv 1 1\n"),
    ("two letters", "s OPTIMAL perfect 5\nxy 1 1\n"),
    ("a barrier of an answer", "s OPTIMAL perfect 5\nu 1 1\n"),
    ("a walk of a matching", "s OPTIMAL perfect 5\nw 1 1 1\n"),
    ("uses of a tour", "s OPTIMAL postman 5\nx 1 1\n"),
    ("duals of a refusal", "s INFEASIBLE perfect\ny 1 1\n"),
    ("a barrier of a tour", "s INFEASIBLE postman\nu 1 1\n"),
    ("a part of a matching", "s INFEASIBLE perfect\nt 1 1\n"),
    ("an edge without a count", "s OPTIMAL perfect 5\nx 1\n"),
    ("an edge with two", "s OPTIMAL perfect 5\nx 1 1 1\n"),
    ("a count of 0", "s OPTIMAL bmatch 5\nx 1 0\n"),
    ("an edge twice", "s OPTIMAL bmatch 5\nx 1 1\nx 1 1\n"),
    ("a walk between bounds", "s OPTIMAL interval 5\nw 1 1 1\n"),
    ("uses of an odd path", "s OPTIMAL oddpath 5\nx 1 1\n"),
    ("uses of an even path", "s OPTIMAL evenpath 5\nx 1 1\n"),
    ("a part of an odd path", "s INFEASIBLE oddpath\nt 1 1\n"),
    ("a part of an even path", "s INFEASIBLE evenpath\nt 1 1\n"),
    ("a part between bounds", "s INFEASIBLE interval\nt 1 1\n"),
    ("a circuit of an odd path", "s NONCONSERVATIVE oddpath\nw 1 1 1\n"),
    ("a circuit of an even path", "s NONCONSERVATIVE evenpath\nw 1 1 1\n"),
    ("duals of a bottleneck", "s OPTIMAL bottleneck 5\nx 1 1\ny 1 1\n"),
    ("sets of a bottleneck", "s OPTIMAL bottleneck 5\nz 2 3 1 2 3\n"),
    ("a walk of a bottleneck", "s OPTIMAL bottleneck 5\nw 1 1 1\n"),
    ("two barriers of a bottleneck", "s OPTIMAL bottleneck 5\nx 1 1\nu 0\nu 0\n"),
    ("a part of a bottleneck", "s OPTIMAL bottleneck 5\nt 1 1\n"),
    ("a part of all edges", "s INFEASIBLE bottleneck\nt 1 1\n"),
    ("a circuit of a bottleneck", "s NONCONSERVATIVE bottleneck\nw 1 1 1\n"),
    ("no answer for sets", "s INFEASIBLE gallai\nu 1 1\n"),
    ("duals beside paths", "s OPTIMAL gallai 1\nx 1 1\ny 1 1\n"),
    ("a set twice", "s OPTIMAL gallai 1\nd 0\nd 0\nu 0\n"),
    ("a border twice", "s OPTIMAL gallai 1\nd 0\nu 0\nu 0\n"),
    ("a set that is too short", "s OPTIMAL gallai 1\nd 2 1\nu 0\n"),
    ("a path twice", "s OPTIMAL gallai 0\nd 1 1\nu 0\nr 1 0\nr 1 0\n"),
    ("a path that is too long", "s OPTIMAL gallai 0\nd 1 1\nu 0\nr 1 0 1\n"),
    ("a path without its length", "s OPTIMAL gallai 0\nd 1 1\nu 0\nr 1\n"),
    ("paths of a perfect matching", "s OPTIMAL perfect 0\nr 1 0\n"),
    ("a set of a perfect matching", "s OPTIMAL perfect 0\nd 1 1\n"),
    ("a walk twice", "s OPTIMAL path 5\nw 1 1 1\nw 1 1 1\n"),
    ("a walk that is too short", "s OPTIMAL path 5\nw 1 2 1\n"),
    ("a set that is too long", "s OPTIMAL perfect 5\nz 9 3 1 2 3 4\n"),
    ("a set without its size", "s OPTIMAL perfect 5\nz 9\n"),
    ("a set of more items than it says", "s OPTIMAL perfect 5\nz 9 3 1 2 3\nz 9 3 4 5 6 @1\n"),
    ("a set within itself", "s OPTIMAL perfect 5\nz 9 3 1 2 @1\n"),
    ("a set within a later one", "s OPTIMAL perfect 5\nz 9 3 1 2 3\nz 9 3 4 5 @3\n"),
    ("set 0", "s OPTIMAL perfect 5\nz 9 3 1 2 3\nz 9 3 4 5 @0\n"),
    ("a mark alone", "s OPTIMAL perfect 5\nz 9 3 1 2 3\nz 9 3 4 5 @\n"),
    ("a dual that refers", "s OPTIMAL perfect 5\nz @1 3 1 2 3\n"),
    ("a barrier that refers", "s INFEASIBLE perfect\nu 1 @1\n"),
    ("a barrier that is too short", "s INFEASIBLE perfect\nu 2 1\n"),
)
STRANGE = (
    (
        "of another kind",
        PAIR,
        "perfect",
        {},
        "s OPTIMAL match 5\nx 1 1\n",
        "expected perfect, got match",
    ),
    ("edge 0", PAIR, "perfect", {}, "s OPTIMAL perfect 5\nx 0 1\n", "refers to edge"),
    ("an edge too many", PAIR, "perfect", {}, "s OPTIMAL perfect 5\nx 2 1\n", "refers to edge"),
    ("edge 0 of a walk", PATH, "postman", {}, "s OPTIMAL postman 4\nw 1 2 1 0\n", "refers to edge"),
    ("an edge below 0", PATH, "postman", {}, "s OPTIMAL postman 4\nw 1 2 1 -1\n", "refers to edge"),
    ("a start too many", PATH, "postman", {}, "s OPTIMAL postman 4\nw 4 2 1 1\n", "refers to node"),
    ("a start of 0", PATH, "postman", {}, "s OPTIMAL postman 4\nw 0 2 1 1\n", "refers to node"),
    (
        "an edge too many of an odd path",
        PATH,
        "oddpath",
        {"source": "a", "target": "c"},
        "s OPTIMAL oddpath 4\nw 1 2 1 3\n",
        "refers to edge",
    ),
    (
        "an edge too many between bounds",
        PATH,
        "interval",
        {"upper": 1},
        "s OPTIMAL interval 4\nx 3 1\n",
        "refers to edge",
    ),
    (
        "the other parity",
        PATH,
        "evenpath",
        {"source": "a", "target": "c"},
        "s OPTIMAL oddpath 2\nw 1 2 1 2\n",
        "expected evenpath, got oddpath",
    ),
    (
        "an edge too many of a bottleneck",
        PAIR,
        "bottleneck",
        {},
        "s OPTIMAL bottleneck 5\nx 2 1\nu 0\n",
        "refers to edge",
    ),
    (
        "node 0 beside a bottleneck",
        PAIR,
        "bottleneck",
        {},
        "s OPTIMAL bottleneck 5\nx 1 1\nu 1 0\n",
        "refers to node",
    ),
    (
        "a node too many beside a bottleneck",
        PAIR,
        "bottleneck",
        {},
        "s OPTIMAL bottleneck 5\nx 1 1\nu 2 1 3\n",
        "refers to node",
    ),
    (
        "a node too many of a barrier",
        PATH,
        "perfect",
        {},
        "s INFEASIBLE perfect\nu 1 4\n",
        "refers to node",
    ),
    (
        "a node too many of a set",
        PAIR,
        "gallai",
        {},
        "s OPTIMAL gallai 0\nd 1 3\nu 0\n",
        "refers to node",
    ),
    (
        "a node too many of a border",
        PAIR,
        "gallai",
        {},
        "s OPTIMAL gallai 0\nd 0\nu 1 3\n",
        "refers to node",
    ),
    (
        "a path from no node",
        PAIR,
        "gallai",
        {},
        "s OPTIMAL gallai 0\nd 0\nu 0\nr 0 0\n",
        "refers to node",
    ),
    (
        "an edge too many of a path",
        PAIR,
        "gallai",
        {},
        "s OPTIMAL gallai 0\nd 1 1\nu 0\nr 1 2 1 2\n",
        "refers to edge",
    ),
    ("no bottleneck", PAIR, "bottleneck", {}, "s OPTIMAL perfect 5\nx 1 1\n", "got perfect"),
    (
        "node 0 of a part",
        PATH,
        "tjoin",
        {"terminals": ["a", "b"]},
        "s INFEASIBLE tjoin\nt 1 0\n",
        "refers to node",
    ),
    (
        "a node too many of a part",
        PATH,
        "postman",
        {},
        "s INFEASIBLE postman\nq 1 4\n",
        "refers to node",
    ),
)
STATUSES = (
    (1, b"", blossom.SolverError, "status 1: unexpected status"),
    (2, b"", blossom.SolverError, "status 2: unknown command; is the program from another version"),
    (
        3,
        b"s MALFORMED Range 4\n",
        blossom.GraphError,
        "rejected the instance: rule Range at line 4",
    ),
    (4, b"s TOOLARGE 9000 7\n", blossom.LimitExceeded, "9000 vertices and 7 edges"),
    (4, b"s TOOLARGE\n", blossom.SolverError, "status 4: unexpected status"),
    (5, b"s TOOLONG\n", blossom.LimitExceeded, "input too long for the solver"),
    (6, b"", blossom.SolverError, "status 6: cannot read its input"),
    (7, b"", blossom.SolverError, "status 7: cannot write its output"),
    (8, b"", blossom.SolverError, "status 8: out of memory"),
    (11, b"", blossom.SolverError, "status 11: unexpected status"),
    (-9, b"", blossom.SolverError, "status -9: killed by signal 9"),
)
VERDICTS = (
    (0, b"s REJECTED Slack 3\n"),
    (1, b"s ACCEPTED\n"),
    (0, b"s ACCEPTED now\n"),
    (0, b""),
    (1, b"s REJECTED Slack\n"),
    (1, b""),
    (0, b"ACCEPTED\n"),
)
NO_ANSWERS = (
    (
        "perfect",
        {},
        "s INFEASIBLE perfect\nu 0\n",
        "no perfect matching exists: the component of 'a', 'b', 'c' has an odd number of nodes, 3",
    ),
    (
        "perfect",
        {},
        "s INFEASIBLE perfect\nu 1 1\n",
        "removing 'a' leaves more than 1 odd components$",
    ),
    ("perfect", {}, "s INFEASIBLE perfect\n", "no perfect matching exists$"),
    (
        "bottleneck",
        {},
        "s INFEASIBLE bottleneck\nu 1 2\n",
        "no perfect matching exists: removing 'b' leaves more than 1 odd components$",
    ),
    ("bottleneck", {}, "s INFEASIBLE bottleneck\n", "no perfect matching exists$"),
    (
        "bmatch",
        {},
        "s INFEASIBLE bmatch\nu 1 1\n",
        r"no perfect b-matching with these degrees exists: .*\('a', 0\)",
    ),
    ("capmatch", {}, "s INFEASIBLE capmatch\nu 0\n", "exists within the capac"),
    ("ffactor", {}, "s INFEASIBLE ffactor\nu 0\n", "no f-factor with these degrees exists"),
    (
        "tjoin",
        {"terminals": ["a"]},
        "s INFEASIBLE tjoin\nt 2 1 2\n",
        "no T-join exists for these terminals: no edge leaves 'a', 'b', which contain 1 terminal$",
    ),
    (
        "path",
        {"source": "a", "target": "c"},
        "s INFEASIBLE path\nt 1 1\n",
        "no path from 'a' to 'c' exists: no edge leaves 'a', and 'c' lies outside$",
    ),
    (
        "postman",
        {},
        "s INFEASIBLE postman\nq 1 3\n",
        "the edges are not connected: no edge leaves 'c'$",
    ),
    (
        "interval",
        {"lower": 1, "upper": 1},
        "s INFEASIBLE interval\nu 2 2 4\n",
        r"no subgraph satisfies the degree bounds: removing \(\('b', 0\), 0\), \(\(\('a', 'b'\), 0, 'a', 0\),"
        r" 0\) leaves more than 2 odd components",
    ),
    ("interval", {"upper": 1}, "s INFEASIBLE interval\n", "satisfies the degree bounds$"),
    (
        "oddpath",
        {"source": "a", "target": "c"},
        "s INFEASIBLE oddpath\nu 1 2\n",
        r"no path from 'a' to 'c' has an odd number of edges: removing \('b', 0\) leaves more than 1",
    ),
    (
        "evenpath",
        {"source": "a", "target": "c"},
        "s INFEASIBLE evenpath\nu 0\n",
        "no path from 'a' to 'c' has an even number of edges: a connected component",
    ),
    (
        "path",
        {"source": "a", "target": "c"},
        "s NONCONSERVATIVE path\nw 1 2 1 1\n",
        r"the graph has a negative cycle: \('a', 'b'\), \('b', 'a'\)",
    ),
    (
        "path",
        {"source": "a", "target": "c"},
        "s NONCONSERVATIVE path\n",
        "the graph has a negative cycle; ",
    ),
)


class Documents(unittest.TestCase):
    def test_what_is_read_of_each_line(self):
        for name, text, wanted in READ:
            document = read(text.encode())
            with self.subTest(name):
                self.assertEqual({key: getattr(document, key) for key in wanted}, wanted)

    def test_a_document_is_spelled_as_it_was(self):
        for text in (
            b"s OPTIMAL perfect 3\nx 1 1\ny 1 -3\ny 2 4\nz 9 3 1 2 3\nz 4 3 4 5 @1\nz 1 3 8 @1 @2\n",
            b"s OPTIMAL bottleneck 3\nx 1 1\nx 4 1\nu 2 3 4\n",
            b"s OPTIMAL bottleneck -3\nx 1 1\nu 0\n",
            b"s OPTIMAL bottleneck 0\n",
            b"s INFEASIBLE bottleneck\nu 1 3\n",
            b"s OPTIMAL gallai 1\nx 1 1\nd 2 1 3\nu 1 2\nr 1 2 1 2\nr 3 0\n",
            b"s OPTIMAL gallai 0\nd 0\nu 0\n",
        ):
            self.assertEqual(spelled(read(text)), text)

    def test_what_is_no_document(self):
        for name, text in REFUSED:
            with self.subTest(name), self.assertRaisesRegex(blossom.SolverError, "document"):
                read(text.encode())

    def test_documents_of_something_else(self):
        for name, edges, kind, words, text, said in STRANGE:
            of = blossom.Instance.from_graph(edges, kind, **words)
            with self.subTest(name), self.assertRaisesRegex(blossom.SolverError, said):
                answer_of(of, 0, text.encode())

    def test_the_words_of_each_reason(self):
        for kind, words, text, said in NO_ANSWERS:
            of = blossom.Instance.from_graph(PATH, kind, **words)
            with self.subTest(text), self.assertRaisesRegex(blossom.NoOptimum, said) as told:
                answer_of(of, 0, text.encode())
            nonconservative = isinstance(told.exception, blossom.NegativeCycle)
            self.assertEqual(nonconservative, "NONCONSERVATIVE" in text)

    def test_long_lists_are_cut(self):
        of = blossom.Instance.from_graph([(node, node + 1) for node in range(9)], "postman")
        with self.assertRaisesRegex(blossom.Infeasible, r"leaves 0, 1, 2, 3, 4, 5 and 3 more$"):
            answer_of(of, 0, b"s INFEASIBLE postman\nq 9 1 2 3 4 5 6 7 8 9\n")

    def test_duals_on_several_lines(self):
        text = b"s OPTIMAL perfect 1\r\ny 1 2\r\ny 2 3\ny 6 -7\n\n y 3 4\ny 4 -6\ny 4 7\ny 5 0"
        self.assertEqual(read(text).duals, {1: 2, 2: 3, 6: -7, 3: 4, 4: 7, 5: 0})
        for more, duals in (
            (b"y 1 9\n", {1: 9, 2: 3}),
            (b"c\ny 1 9\nc\ny 2 8\ny 4 7\n", {1: 9, 2: 8, 4: 7}),
            (b"c\ny 1 9\nc\ny 1 6\n", {1: 6, 2: 3}),
        ):
            document = read(b"s OPTIMAL perfect 1\ny 1 2\ny 2 3\nc the later one counts\n" + more)
            self.assertEqual((document.duals, list(document.duals)), (duals, list(duals)))
        for text, line in (
            (b"s OPTIMAL gallai 1\ny 1 2\ny 2 3\n", "y 1 2"),
            (b"s OPTIMAL perfect 1\ny 1 2\ny 2 3\ny 4 x\ny 5 6\n", "y 4 x"),
            (b"s OPTIMAL perfect 1\ny 1 2\ny 2 3 4\ny 5\n", "y 2 3 4"),
            (b"y 1 2\ny 2 3\n", "y 1 2"),
        ):
            with self.assertRaisesRegex(blossom.SolverError, "document: '%s'$" % line):
                read(text)


class Statuses(unittest.TestCase):
    def test_what_each_status_means(self):
        for status, output, error, said in STATUSES:
            with self.subTest(status=status), self.assertRaisesRegex(error, said) as told:
                blossom.min_weight_perfect_matching(PAIR, engine=StandIn(status, output))
            self.assertIs(type(told.exception), error)

    def test_what_is_no_verdict(self):
        for status, output in VERDICTS:
            with self.subTest(output=output), self.assertRaisesRegex(
                blossom.SolverError, "unexpected output of the checker"
            ):
                blossom.check(PAIR, "perfect", "", engine=StandIn(status, output))

    def test_statuses_of_the_checker(self):
        of = blossom.Instance.from_graph(TRIANGLES, "perfect")
        self.assertEqual(
            verdict_of(of, 1, b"s REJECTED Slack 3\n"), blossom.Verdict(False, "Slack", 3)
        )
        for status, output, error, said in STATUSES[1:]:
            with self.subTest(status=status), self.assertRaisesRegex(error, said):
                blossom.check(PAIR, "perfect", "", engine=StandIn(status, output))

    def test_what_the_program_is_asked(self):
        stand_in = StandIn()
        answer = blossom.min_weight_perfect_matching(PAIR, engine=stand_in, timeout=3)
        blossom.min_weight_perfect_matching(PAIR, engine=stand_in, certificate=False)
        stand_in.output = b"s ACCEPTED\n"
        self.assertTrue(answer.check(timeout=7))
        text = b"p edge 2 1\ne 1 2 5\n"
        self.assertEqual(
            stand_in.asked,
            [
                ("solve", "perfect", text, 3),
                ("brief", "perfect", text, None),
                ("check", "perfect", text + b"s OPTIMAL perfect 1\nx 1 1\n", 7),
            ],
        )
