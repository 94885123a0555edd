"""Certificates in names: the duals are feasible and the barriers are barriers in graphs that are
built here from names alone."""
import io
import os
import subprocess
import tempfile
import unittest
from fractions import Fraction

import blossom
from blossom.process import find_program
from support import STAR, TRIANGLES, instances
from test_answers import outcome

VALUES = {"tjoin": "terminals"}


def graph_of_duals(edges, kind, words):
    """The vertices and the edges (first, second, weight) of the graph that certificates speak
    of, by names."""
    nodes = list(dict.fromkeys([*words["nodes"], *(end for edge in edges for end in edge[:2])]))
    names = blossom.Instance.from_graph(edges, kind, **words).edges
    links = [edge for edge in edges if edge[0] != edge[1]]
    if kind in ("perfect", "bottleneck", "gallai"):
        return nodes, [edge[:3] for edge in links]
    if kind == "match":
        twins = [((u, copy), (v, copy), -weight) for u, v, weight, _ in links for copy in (0, 1)]
        return [(node, copy) for node in nodes for copy in (0, 1)], twins + [
            ((node, 0), (node, 1), 0) for node in nodes
        ]
    if kind in ("bmatch", "capmatch", "ffactor"):
        return with_values(nodes, edges, names, kind, words["degrees"])
    if kind == "interval":
        return with_halves(nodes, edges, names, words)
    if kind in ("oddpath", "evenpath"):
        return with_sides(nodes, links, kind, words)
    return with_ports(nodes, edges, names, kind, words)


def with_values(nodes, edges, names, kind, values):
    vertices = [(node, copy) for node in nodes for copy in range(values[node])]
    found = []
    for (u, v, weight, capacity), name in zip(edges, names):
        one, other = [(u, copy) for copy in range(values[u])], [
            (v, copy) for copy in range(values[v])
        ]
        if kind == "bmatch":
            found += [(a, b, weight) for a in one for b in other if u != v or a < b]
            continue
        units = min(
            [
                len(one),
                len(other),
                1 if kind == "ffactor" else len(one) if capacity is None else capacity,
            ]
        )
        near, far = [(name, unit, u, 0) for unit in range(units)], [
            (name, unit, v, int(u == v)) for unit in range(units)
        ]
        vertices += near + far
        found += (
            [(a, b, weight) for a in one for b in near]
            + [(a, b, 0) for a in near for b in far]
            + [(a, b, 0) for a in far for b in other]
        )
    return vertices, found


def with_halves(nodes, edges, names, words):
    """The graph of `capmatch` for the upper bounds twice, with edges between the copies past the
    lower bounds."""
    most = words.get("default_capacity")
    edges = [(*edge[:3], most if edge[3] is None else edge[3]) for edge in edges]
    lower = {node: words["lower"].get(node, 0) for node in nodes}
    upper = words.get("upper") or {
        node: max(lower[node], sum(edge[3] * edge[:2].count(node) for edge in edges))
        for node in nodes
    }
    vertices, half = with_values(nodes, edges, names, "capmatch", upper)
    spare = [
        (((node, copy), 0), ((node, copy), 1), 0)
        for node in nodes
        for copy in range(lower[node], upper[node])
    ]
    return (
        [(name, side) for side in (0, 1) for name in vertices],
        [((u, side), (v, side), weight) for side in (0, 1) for u, v, weight in half] + spare,
    )


def with_sides(nodes, links, kind, words):
    """The graph twice, whose nodes are joined to themselves, without the ends of a path where it
    isn't to begin or end."""
    first, last = sorted((words["source"], words["target"]), key=nodes.index)
    absent = {(first, 1), (last, 1 if kind == "oddpath" else 0)}
    vertices = [(node, side) for node in nodes for side in (0, 1) if (node, side) not in absent]
    found = [((u, side), (v, side), weight) for u, v, weight, _ in links for side in (0, 1)]
    found += [((node, 0), (node, 1), 0) for node in nodes]
    return vertices, [edge for edge in found if edge[0] in vertices and edge[1] in vertices]


def with_ports(nodes, edges, names, kind, words):
    odd = set(words.get("terminals", ())) | {
        words[end] for end in ("source", "target") if end in words
    }
    found = [
        ((u, name, 0), (v, name, int(u == v)), weight)
        for (u, v, weight, _), name in zip(edges, names)
    ]
    vertices = []
    for node in nodes:
        own = [
            (node, name, end)
            for (u, v, *_), name in zip(edges, names)
            for end in range((u, v).count(node))
        ]
        if kind != "postman" and (len(own) + (node in odd)) % 2:
            own.append((node, None, 0))
        vertices += own
        found += [(first, second, 0) for place, second in enumerate(own) for first in own[:place]]
    return vertices, found


def odd_components(vertices, edges, removed):
    """The number of components of odd size without these vertices."""
    left, count = set(vertices) - set(removed), 0
    while left:
        front, size = [left.pop()], 0
        while front:
            here = front.pop()
            size += 1
            near = {end for u, v, _ in edges if here in (u, v) for end in (u, v)} & left
            left -= near
            front += near
        count += size % 2
    return count


class Equal(unittest.TestCase):
    def test_instances_and_certificates_that_differ(self):
        one, other = ([("a", "b", weight), ("b", "c", 4)] for weight in (3, 4))
        self.assertEqual(
            blossom.Instance.from_graph(one, "match"),
            blossom.Instance.from_graph(list(one), "match"),
        )
        self.assertNotEqual(
            blossom.Instance.from_graph(one, "match"), blossom.Instance.from_graph(other, "match")
        )
        self.assertNotEqual(
            blossom.Instance.from_graph(one, "match"),
            blossom.Instance.from_graph(one, "tjoin", terminals=[]),
        )
        of = blossom.Instance.from_graph(one, "match")
        texts = [b"s OPTIMAL match 4\nx 2 1\n", b"s OPTIMAL match 3\nx 1 1\n"]
        first, second = (blossom.Certificate(of, text) for text in texts)
        self.assertNotEqual(first, second)
        self.assertEqual(first, blossom.Certificate(of, blossom.documents.read(texts[0])))


class Named(unittest.TestCase):
    def test_duals_and_barriers_are_right_by_name(self):
        seen = set()
        for kind in blossom.KINDS:
            for edges, words in instances(kind, 40, seed=2):
                with self.subTest(kind=kind, edges=edges, words=words):
                    certificate = outcome(edges, kind, words)
                    seen.add((kind, certificate.status, bool(certificate.odd_sets)))
                    self.by_names(edges, kind, words, certificate)
        for kind in blossom.KINDS:
            self.assertIn((kind, "optimal", False), seen)
        self.assertTrue(
            {"bmatch", "capmatch", "ffactor", "interval", "oddpath", "evenpath", "bottleneck"}
            <= {kind for kind, status, _ in seen if status == "infeasible"}
        )
        self.assertGreater(len({kind for kind, _, sets in seen if sets}), 3)

    def by_names(self, edges, kind, words, certificate):
        vertices, graph = graph_of_duals(edges, kind, words)
        if (certificate.status, kind) == ("optimal", "bottleneck"):
            self.assertEqual(
                (certificate.duals, certificate.odd_sets, certificate.dual_value), ({}, [], 0)
            )
            lighter = [edge for edge in graph if edge[2] < certificate.document.weight]
            self.assertGreater(
                odd_components(vertices, lighter, certificate.barrier), len(certificate.barrier)
            )
        elif (certificate.status, kind) == ("optimal", "gallai"):
            self.assertEqual(
                (certificate.duals, certificate.odd_sets, certificate.dual_value), ({}, [], 0)
            )
            missed = len(vertices) - 2 * len(certificate.document.counts)
            self.assertEqual(
                odd_components(vertices, graph, certificate.barrier),
                len(certificate.barrier) + missed,
            )
        elif certificate.status == "optimal":
            self.assertEqual(set(certificate.duals), set(vertices))
            for first, second, weight in graph:
                sets = sum(
                    one.dual
                    for one in certificate.odd_sets
                    if (first in one.members) != (second in one.members)
                )
                self.assertGreaterEqual(
                    weight, certificate.duals[first] + certificate.duals[second] + sets
                )
            weight = certificate.document.weight
            least = weight - sum(edge[2] for edge in edges)
            best = {"match": -2 * weight, "postman": least, "interval": 2 * weight}.get(
                kind, weight
            )
            self.assertEqual(certificate.dual_value, best)
        elif certificate.barrier is not None:
            self.assertGreater(
                odd_components(vertices, graph, certificate.barrier), len(certificate.barrier)
            )

    def test_the_two_ends_of_a_loop_have_names(self):
        loop = ("a", "a")
        names = blossom.vertices.vertex_names(
            blossom.Instance.from_graph([("a", "b"), loop], "tjoin", terminals=["b"])
        )
        ports = [
            blossom.vertices.Port("a", ("a", "b")),
            blossom.vertices.Port("a", loop),
            blossom.vertices.Port("a", loop, 1),
            blossom.vertices.Port("a", None),
            blossom.vertices.Port("b", ("a", "b")),
        ]
        self.assertEqual(names, ports)
        self.assertEqual(
            [(name.node, name.end) for name in names],
            [("a", 0), ("a", 0), ("a", 1), ("a", 0), ("b", 0)],
        )
        names = blossom.vertices.vertex_names(
            blossom.Instance.from_graph([loop, ("a", "b")], "capmatch", degrees={"a": 2})
        )
        self.assertEqual(
            names[:3],
            [
                blossom.vertices.Copy("a", 0),
                blossom.vertices.Copy("a", 1),
                blossom.vertices.Copy("b", 0),
            ],
        )
        self.assertEqual(
            names[3:],
            [
                blossom.vertices.Subdivision(loop, 0, "a"),
                blossom.vertices.Subdivision(loop, 1, "a"),
                blossom.vertices.Subdivision(loop, 0, "a", 1),
                blossom.vertices.Subdivision(loop, 1, "a", 1),
                blossom.vertices.Subdivision(("a", "b"), 0, "a"),
                blossom.vertices.Subdivision(("a", "b"), 0, "b"),
            ],
        )
        self.assertEqual(len(set(names)), len(names))

    def test_the_copies_and_gates_of_two_halves_have_names(self):
        loop, edge = ("b", "b"), ("a", "b")
        of = blossom.Instance.from_graph(
            [(*loop, 1, 1), (*edge, 1)],
            "interval",
            lower={"b": 1},
            upper={"a": 1, "b": 2},
            nodes=["a"],
        )
        half = [
            blossom.vertices.Copy("a", 0),
            blossom.vertices.Copy("b", 0),
            blossom.vertices.Copy("b", 1),
            blossom.vertices.Subdivision(loop, 0, "b"),
            blossom.vertices.Subdivision(loop, 0, "b", 1),
            blossom.vertices.Subdivision(edge, 0, "a"),
            blossom.vertices.Subdivision(edge, 0, "b"),
        ]
        self.assertEqual(
            blossom.vertices.vertex_names(of),
            [blossom.vertices.Mirror(name, side) for side in (0, 1) for name in half],
        )

    def test_the_nodes_of_two_sides_have_names(self):
        edges = [("c", "b"), ("b", "a")]
        for source, target in (
            ("b", "a"),
            ("a", "b"),
        ):  # the first side begins where the program does, whichever way is asked for
            for kind, names in (("oddpath", "c0 b0 a0 c1"), ("evenpath", "c0 b0 c1 a1")):
                of = blossom.Instance.from_graph(edges, kind, source=source, target=target)
                self.assertEqual(
                    blossom.vertices.vertex_names(of),
                    [blossom.vertices.Layer(one[0], int(one[1])) for one in names.split()],
                )

    def test_the_odd_sets_of_two_triangles(self):
        certificate = blossom.min_weight_perfect_matching(TRIANGLES).certificate
        self.assertEqual(certificate.dual_value, 12)
        self.assertEqual(certificate.status, "optimal")
        self.assertTrue(
            all(len(one.members) % 2 == 1 and one.dual > 0 for one in certificate.odd_sets)
        )


class Nested(unittest.TestCase):
    def test_sets_within_sets(self):
        edges = [("a", "b", 0), ("c", "d", 1), ("e", "f", 2)]
        text = (
            b"s OPTIMAL perfect 3\nx 1 1\nx 2 1\nx 3 1\n%sz 2 3 1 2 3\nz 4 3 4 5 @1\n"
            % b"".join(b"y %d 0\n" % v for v in range(1, 7))
        )
        certificate = blossom.Certificate(blossom.Instance.from_graph(edges, "perfect"), text)
        self.assertEqual(
            certificate.odd_sets, [(("a", "b", "c"), 1), (("a", "b", "c", "d", "e"), 2)]
        )
        self.assertEqual(
            certificate.laminar_sets, [(("a", "b", "c"), (), 1), (("d", "e"), (0,), 2)]
        )
        self.assertEqual((certificate.dual_value, bool(certificate.check())), (3, True))
        hulls = [
            shape
            for shape in certificate.draw().sheet.shapes
            if getattr(shape, "opacity", 1) == 0.16
        ]
        self.assertEqual(len(hulls), 2)

    def test_many_sets_within_each_other(self):
        depth = 2000
        lines = "".join(
            "z 1 3 %d %d @%d\n" % (2 * j, 2 * j + 1, j - 1) for j in range(2, depth + 1)
        )
        text = ("s OPTIMAL perfect 0\nz 1 3 1 2 3\n" + lines).encode()
        of = blossom.Instance.from_graph([], "perfect", nodes=range(1, 4097))
        certificate = blossom.Certificate(of, text)
        self.assertEqual(
            [one.inner for one in certificate.laminar_sets],
            [(), *((place,) for place in range(depth - 1))],
        )
        self.assertEqual(certificate.laminar_sets[-1].vertices, (2 * depth, 2 * depth + 1))
        self.assertEqual(certificate.dual_value, Fraction(depth, 2))

    def test_sets_are_those_that_are_nested(self):
        for kind in blossom.KINDS:
            for edges, words in instances(kind, 15, seed=6):
                certificate = outcome(edges, kind, words)
                found = []
                for one in certificate.laminar_sets:
                    found.append(set(one.vertices).union(*(found[place] for place in one.inner)))
                self.assertEqual(found, [set(one.members) for one in certificate.odd_sets])
                self.assertEqual(
                    [one.dual for one in certificate.laminar_sets],
                    [one.dual for one in certificate.odd_sets],
                )


class Written(unittest.TestCase):
    def test_a_certificate_writes_itself_as_what_the_program_checks(self):
        certificate = blossom.min_weight_perfect_matching([("a\nb", "\u00e9", 3)]).certificate
        with tempfile.TemporaryDirectory() as room:
            path = os.path.join(room, "certificate.txt")
            certificate.write(path)
            with open(path, "rb") as file:
                done = subprocess.run(
                    [find_program(), "check", "perfect"], stdin=file, capture_output=True
                )
        self.assertEqual((done.returncode, done.stdout), (0, b"s ACCEPTED\n"))

    def test_files_that_are_open(self):
        certificate = blossom.min_weight_perfect_matching([("a", "b", 3)]).certificate
        text, raw = io.StringIO(), io.BytesIO()
        certificate.write(text)
        certificate.write(raw)
        self.assertEqual(text.getvalue().encode(), raw.getvalue())
        self.assertIn("c vertex 2 is 'b'\n", text.getvalue())
        alone = io.StringIO()
        certificate.write(alone, instance=False)
        self.assertEqual(alone.getvalue(), str(certificate))
        with tempfile.TemporaryFile("w+") as file:
            certificate.write(file)

    def test_a_refusal_writes_itself_too(self):
        with self.assertRaises(blossom.Infeasible) as told:
            blossom.min_weight_perfect_matching(STAR)
        text = io.StringIO()
        told.exception.certificate.write(text, instance=False)
        self.assertEqual(text.getvalue(), "s INFEASIBLE perfect\nu 1 1\n")
