"""Solutions of other programs: judged rightly, for all kinds, with a certificate that the proved
checker accepts, or with a better answer."""
import random
import unittest

import blossom
from support import PATHS, TRIANGLES, instances, library_or_skip, wanted

GIVEN = {"engine": "library"}


def spelled(answer):
    """The edges of an answer as another program may give them."""
    if answer.kind in ("postman", *PATHS):
        return answer.edge_walk
    return [edge for edge, count in answer.multiplicities.items() for _ in range(count)]


class Judged(unittest.TestCase):
    def setUp(self):
        library_or_skip()

    def test_all_kinds(self):
        """The answers of graphs with other weights are solutions, some of them optimal."""
        for kind in blossom.KINDS:
            chance, verdicts = random.Random(kind), []
            for edges, words in instances(kind, 60, seed=11):
                other = [(u, v, chance.choice((weight, chance.randint(0, 9))), capacity)
                         for u, v, weight, capacity in edges]
                try:
                    best = blossom.solve(edges, kind, **GIVEN, **words)
                    given = blossom.solve(other, kind, **GIVEN, **words)
                except (blossom.Infeasible, blossom.NegativeCycle):
                    continue
                with self.subTest(kind=kind, edges=edges, words=words, other=other):
                    verdicts.append(self.judge(edges, kind, words, best, given))
            self.assertIn(True, verdicts)
            if kind != "gallai":
                self.assertIn(False, verdicts, kind)

    def judge(self, edges, kind, words, best, given):
        """Whether the edges of another answer are judged optimal."""
        told = blossom.is_optimal(edges, kind, spelled(given), **GIVEN, **words)
        weights = best.instance.weights
        used = [weights[index] * given.edge_counts[index] for index in given.edge_indices]
        weight = {"bottleneck": max(used, default=0), "gallai": len(used)}.get(kind, sum(used))
        self.assertEqual(told.weight, weight)
        self.assertEqual(bool(told), weight == best.weight)
        self.assertEqual(told.answer.weight, best.weight)
        self.assertEqual(told.answer.check(**GIVEN), blossom.Verdict(True))
        if told:
            self.assertEqual(told.answer.edge_counts, given.edge_counts)
            self.assertIsNone(told.reason)
        else:
            self.assertEqual(told.answer.edge_counts, best.edge_counts)
            self.assertRegex(told.reason, "it weighs %d, and an optimal solution weighs %d"
                             % (weight, best.weight))
        return bool(told)

    def test_maximum_matchings(self):
        """Each matching with the most edges gets alternating paths of its own."""
        chance, seen = random.Random(3), set()
        for _ in range(120):
            nodes = range(chance.randint(2, 9))
            edges = [(*chance.sample(nodes, 2), 1) for _ in range(chance.randint(1, 12))]
            most = blossom.solve(edges, "gallai", nodes=nodes, **GIVEN)
            turned = blossom.solve(edges[::-1], "gallai", nodes=list(nodes)[::-1], **GIVEN)
            places = [len(edges) - 1 - index for index in turned.edge_indices]
            told = blossom.is_optimal(edges, "gallai", places, nodes=nodes, **GIVEN)
            self.assertTrue(told)
            self.assertEqual(told.answer.edge_indices, sorted(places))
            self.assertEqual(told.answer.check(**GIVEN), blossom.Verdict(True))
            seen.add(places == most.edge_indices)
            if places:
                fewer = blossom.is_optimal(edges, "gallai", places[1:], nodes=nodes, **GIVEN)
                self.assertRegex(fewer.reason, "it has %d edges, and a maximum matching has %d"
                                 % (len(places) - 1, len(places)))
        self.assertEqual(seen, {True, False})

    def test_what_is_no_solution(self):
        square = [("a", "b", 1), ("b", "c", 4), ("c", "d", 1), ("d", "a", 4)]
        for kind, edges, reason in (
                ("perfect", [("a", "b")], "node 'c' has degree 0, expected 1"),
                ("perfect", [("a", "b"), ("b", "c")], "node 'b' has degree 2, expected"),
                ("match", [0, 1], "node 'b' has degree 2, expected"),
                ("ffactor", [0, 0, 2, 2], "edge .* is used 2 times, above its capacity 1"),
                ("postman", [0, 1, 2], "the walk is not closed: it ends at 'd'"),
                ("postman", [0, 0], "edge"),
                ("postman", [0, 0, 2, 2], "its edges are no walk of the problem")):
            told = blossom.is_optimal(square, kind, edges, **GIVEN)
            self.assertFalse(told)
            self.assertIsNone(told.weight)
            self.assertRegex(told.reason, reason)
            self.assertTrue(told.answer.check(**GIVEN))
        for edges in ([("a", "c")], [7], [-1], ["ab"], [("a", "b", 1)]):
            with self.assertRaisesRegex(blossom.GraphError, "isn't in the graph"):
                blossom.is_optimal(square, "perfect", edges, **GIVEN)
        with self.assertRaises(blossom.Infeasible):
            blossom.is_optimal(square[:1], "perfect", [0], nodes=["z"], **GIVEN)

    def test_forms(self):
        square = [("a", "b", 1), ("b", "c", 4), ("c", "d", 1), ("d", "a", 4)]
        for edges in ([("b", "a"), ("d", "c")], [0, 2], {0: 1, 2: 1}, {frozenset("ab"), ("c", "d")},
                      {"a": "b", "b": "a", "c": "d", "d": "c"}, {("a", "b"): 1, ("c", "d"): 1}):
            self.assertTrue(blossom.is_optimal(square, "perfect", edges, **GIVEN), edges)
        self.assertTrue(blossom.is_optimal(
            blossom.Instance.from_graph(square, "match"), "match", [1, 3], **GIVEN))
        double = [("a", "b", 5), ("a", "b", 3), ("a", "b", 9)]
        self.assertTrue(blossom.is_optimal(double, "perfect", [("b", "a")], **GIVEN))
        self.assertTrue(blossom.is_optimal(double, "match", [("b", "a")], **GIVEN))
        self.assertFalse(blossom.is_optimal(double, "perfect", [("a", "b", 0)], **GIVEN))
        found = blossom.is_optimal(double, "tjoin", [("a", "b")] * 2, terminals=[], **GIVEN)
        self.assertEqual((found.weight, found.answer.edges), (8, []))

    def test_walks(self):
        streets = [("a", "b", 1), ("b", "c", 1), ("a", "c", 3), ("c", "d", 1)]
        path = {"source": "a", "target": "d"}
        for edges in (list("abcd"), [("a", "b"), ("b", "c"), ("c", "d")],
                      [("c", "d"), ("a", "b"), ("c", "b")]):
            self.assertTrue(blossom.is_optimal(streets, "path", edges, **path, **GIVEN), edges)
        longer = blossom.is_optimal(streets, "path", list("acd"), **path, **GIVEN)
        self.assertEqual((longer.weight, longer.answer.node_walk), (4, list("abcd")))
        even = blossom.is_optimal(streets, "evenpath", list("acd"), **path, **GIVEN)
        self.assertTrue(even)
        self.assertEqual(even.answer.node_walk, list("acd"))
        turned = blossom.is_optimal(streets, "evenpath", list("dca"), source="d", target="a", **GIVEN)
        self.assertEqual((bool(turned), turned.answer.node_walk), (True, list("dca")))
        tour = blossom.is_optimal(streets, "postman", list("abcdca"), **GIVEN)
        self.assertTrue(tour)
        self.assertTrue(tour.answer.check(**GIVEN))
        self.assertEqual(tour.answer.edge_counts, [1, 1, 1, 2])
        twice = blossom.is_optimal(streets, "postman", [0, 0, 1, 1, 2, 2, 3, 3], **GIVEN)
        self.assertEqual((twice.weight, twice.answer.weight), (12, 7))

    def test_networkx(self):
        networkx = wanted("networkx")
        graph = networkx.gnp_random_graph(14, 0.5, seed=2)
        for place, (u, v) in enumerate(graph.edges):
            graph[u][v]["weight"] = place * 37 % 17
        matching = networkx.max_weight_matching(graph)
        self.assertTrue(blossom.is_optimal(graph, "match", matching, **GIVEN))
        path = networkx.shortest_path(graph, 0, 13, weight="weight")
        self.assertTrue(blossom.is_optimal(graph, "path", path, source=0, target=13, **GIVEN))
        circuit = networkx.eulerian_circuit(networkx.eulerize(graph))
        self.assertIsNotNone(blossom.is_optimal(graph, "postman", list(circuit), **GIVEN).weight)

    def test_certificate(self):
        told = blossom.is_optimal(TRIANGLES, "perfect", [("d", "c"), ("a", "b"), ("e", "f")], **GIVEN)
        proof = told.answer.certificate
        self.assertEqual((proof.dual_value, told.weight), (12, 12))
        self.assertIn(b"s OPTIMAL perfect 12\nx 1 1\nx 5 1\nx 7 1\n", proof.text)
