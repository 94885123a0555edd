"""Limits in the nodes and edges of the caller, with the program's own as they are met."""
import unittest

import blossom
from blossom.vertices import vertex_names
from blossom.limits import too_large
from support import StandIn

PAIR = [("a", "b")]
LOOP = [("a", "a")]
LONELY = {"a": 4096, "c": 4096, "d": 4096, "e": 4096}


def path(nodes):
    return [(node, node + 1) for node in range(nodes - 1)]


def star(edges):
    return [("hub", leaf) for leaf in range(edges)]


def ring(edges):
    return [(node, (node + 1) % edges) for node in range(edges)]


# kind, the graph, words of `instance`, and what is said of it: nothing where it isn't too large.
CASES = (
    ("perfect", path(4096), {}, ""),
    ("match", path(4096), {}, ""),
    ("bottleneck", path(4096), {}, ""),
    ("gallai", path(4095), {}, ""),
    ("gallai", 65536 * PAIR, {}, ""),
    ("bottleneck", 65536 * PAIR, {}, ""),
    ("bmatch", PAIR, {"degrees": {"a": 1024, "b": 1024}}, ""),
    (
        "bmatch",
        PAIR,
        {"degrees": {"a": 1024, "b": 1025}},
        "its certificate graph has 1049600 edges",
    ),
    (
        "bmatch",
        PAIR,
        {"degrees": {**LONELY, "b": 1}, "nodes": list(LONELY)},
        "the degrees sum to 16385; the limit is 16384",
    ),
    (
        "capmatch",
        PAIR,
        {"degrees": {"a": 1024, "b": 1024}},
        "its certificate graph has 3145728 edges",
    ),
    (
        "capmatch",
        path(3),
        {"degrees": {0: 4096, 1: 4096, 2: 4096}},
        "28672 vertices .degrees 12288 . 2 × edge uses 8192",
    ),
    (
        "capmatch",
        [("a", "b", 1, 548)],
        {"degrees": {"a": 1500, "b": 1500}},
        "its certificate graph has 1944304 edges",
    ),
    ("capmatch", [("a", "b", 1, 1)], {"degrees": {"a": 2000, "b": 2000}}, ""),
    ("ffactor", 8191 * PAIR, {}, ""),
    ("ffactor", 8192 * PAIR, {}, "16386 vertices .degrees 2 . 2 × edge uses 8192"),
    ("tjoin", 2 * ring(4096), {"terminals": []}, ""),
    (
        "tjoin",
        2 * ring(4096) + [(0, 1)],
        {"terminals": []},
        "8193 edges give 16388 ports; the limit is 16384, so at most 8192 edges",
    ),
    ("tjoin", path(4096), {"terminals": []}, ""),
    ("path", 2 * ring(4095), {"source": 0, "target": 1}, ""),
    ("path", 2 * ring(4096), {"source": 0, "target": 1}, "8192 edges give 16386 ports"),
    ("postman", 2 * ring(4096), {}, ""),
    (
        "postman",
        2 * ring(4096) + [(0, 1)],
        {},
        "8193 edges give 16386 ports",
    ),
    ("postman", star(1447), {}, ""),
    ("postman", star(1448), {}, "1047628 pairs of incident edges .node 'hub' has degree 1448"),
    ("bmatch", LOOP, {"degrees": {"a": 1448}}, ""),
    (
        "bmatch",
        LOOP,
        {"degrees": {"a": 1449}},
        "its certificate graph has 1049076 edges, .* for each loop",
    ),
    ("capmatch", LOOP, {"degrees": {"a": 591}}, ""),
    ("capmatch", LOOP, {"degrees": {"a": 592}}, "its certificate graph has 1051392 edges"),
    ("match", 65536 * LOOP, {}, ""),
    ("postman", 724 * LOOP, {}, ""),
    (
        "postman",
        725 * LOOP,
        {},
        r"1050525 pairs of incident edges \(node 'a' has degree 1450, a loop counts twice\)",
    ),
    (
        "tjoin",
        725 * LOOP,
        {"terminals": ["a"]},
        "1051975 pairs of incident edges .node .* has degree 1450",
    ),
    ("interval", PAIR, {"upper": 417}, ""),
    ("interval", PAIR, {"upper": 418, "lower": 302}, ""),
    (
        "interval",
        PAIR,
        {"upper": 418, "lower": {"a": 302, "b": 301}},
        "its certificate graph has 1048577 edges; the limit is 1048576",
    ),
    ("interval", LOOP, {"upper": 418, "lower": 186}, ""),
    ("interval", LOOP, {"upper": 418, "lower": 185}, "its certificate graph has 1048577 edges"),
    ("interval", PAIR, {"upper": {"a": 4096, "b": 1, "c": 4093}, "nodes": ["c"]}, ""),
    (
        "interval",
        PAIR,
        {"upper": {"a": 4096, "b": 1, "c": 4094}, "nodes": ["c"]},
        r"16386 vertices \(2 × upper bounds 8191 \+ 4 × edge uses 1\)",
    ),
    ("interval", 2 * ring(1024), {"lower": 1, "default_capacity": 1}, ""),
    (
        "interval",
        2 * ring(1024) + [(0, 1)],
        {"lower": 1, "default_capacity": 1},
        r"16392 vertices \(2 × upper bounds 4098 \+ 4 × edge uses 2049\)",
    ),
    (
        "interval",
        4096 * LOOP,
        {"upper": 1, "default_capacity": 1},
        r"16386 vertices \(2 × .* \+ 4 × edge uses 4096\)",
    ),
    ("oddpath", 16 * ring(4096), {"source": 0, "target": 1}, ""),
    ("evenpath", 16 * ring(4096), {"source": 0, "target": 2}, ""),
)


class Limits(unittest.TestCase):
    def test_what_is_said_of_each_kind(self):
        for kind, edges, words, said in CASES:
            of = blossom.Instance.from_graph(edges, kind, **words)
            with self.subTest(kind=kind, edges=len(edges), said=said):
                if said:
                    self.assertRegex(too_large(of), said)
                else:
                    self.assertEqual(too_large(of), "")

    def test_the_program_refuses_what_is_too_large(self):
        for kind, edges, words, said in CASES:
            if said:
                with self.subTest(kind=kind, said=said):
                    with self.assertRaisesRegex(blossom.LimitExceeded, said) as told:
                        blossom.solve(edges, kind, **words)
                    self.assertTrue(
                        told.exception.vertices > 16384 or told.exception.edges > 1048576
                    )

    def test_and_takes_what_is_not(self):
        taken = [
            case
            for case in CASES
            if not case[3]
            and (
                case[0] in ("match", "tjoin", "path", "oddpath", "evenpath", "bottleneck", "gallai")
                or "most" in case[2]
            )
        ]
        for kind, edges, words, _ in taken:
            with self.subTest(kind=kind, edges=len(edges)):
                self.assertEqual(blossom.solve(edges, kind, certificate=False, **words).kind, kind)

    def test_a_limit_that_is_not_known_here(self):
        with self.assertRaisesRegex(blossom.LimitExceeded, "9 vertices and 8 edges"):
            blossom.min_weight_perfect_matching(PAIR, engine=StandIn(4, b"s TOOLARGE 9 8\n"))

    def test_sizes_are_those_of_the_names_of_duals(self):
        for kind, edges, words, said in CASES:
            of = blossom.Instance.from_graph(edges, kind, **words)
            with self.subTest(kind=kind, edges=len(edges)):
                self.assertTrue(said or len(vertex_names(of)) <= 16384)
                larger = "together" in said and kind != "path"
                self.assertTrue(not larger or len(vertex_names(of)) > 16384)
