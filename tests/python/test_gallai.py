"""Matchings of the most edges, the nodes that some such one misses, their neighbours, and the
paths that show it."""
import inspect
import itertools
import random
import unittest

import blossom
from blossom import solving
from blossom.documents import read
from blossom.fitting import fitted
from support import STAR, TRIANGLES, StandIn, instances, library_or_skip, wanted

# The edges, words of the call, how many edges a greatest matching has, and the three sets.
CASES = (
    (STAR, {}, 1, "xyz", ["hub"], ""),
    (TRIANGLES, {}, 3, "", [], "abcdef"),
    ([("a", "b"), ("b", "c"), ("a", "c")], {}, 1, "abc", [], ""),
    ([("a", "b"), ("b", "c"), ("c", "d")], {}, 2, "", [], "abcd"),
    ([("a", "b"), ("b", "c"), ("c", "d"), ("d", "e")], {}, 2, "ace", ["b", "d"], ""),
    (
        [("a", "b"), ("b", "c"), ("a", "c"), ("c", "d"), ("d", "e"), ("d", "f"), ("g", "h")],
        {},
        3,
        "abcef",
        ["d"],
        "gh",
    ),
    ([("a", "b"), ("b", "c"), ("d", "e"), ("e", "b")], {}, 2, "ac", ["b"], "de"),
    ([("a", "b", -3), ("b", "c", 10**12)], {}, 1, "ac", ["b"], ""),
    ([("a", "b", 0.1), ("b", "c", "heavy")], {}, 1, "ac", ["b"], ""),
    ([("a", "b"), ("b", "a"), ("b", "c"), ("c", "b")], {}, 1, "ac", ["b"], ""),
    ([("a", "a"), ("a", "b"), ("b", "b"), ("c", "c")], {}, 1, "c", [], "ab"),
    ([("a", "b")], {"nodes": ["x", "a"]}, 1, "x", [], "ab"),
    ([], {"nodes": ["x", "y"]}, 0, "xy", [], ""),
    ([], {}, 0, "", [], ""),
)


def sets_by_all(nodes, edges):
    """The same by all matchings: how many edges the greatest have, the nodes that some of them
    miss, and their neighbours."""
    links = [frozenset(edge[:2]) for edge in edges if edge[0] != edge[1]]
    for size in range(len(nodes) // 2, -1, -1):
        found = [
            frozenset().union(*some)
            for some in itertools.combinations(links, size)
            if len(frozenset().union(*some)) == 2 * size
        ]
        if found:
            outer = [node for node in nodes if any(node not in met for met in found)]
            near = {end for link in links for end in link if link & set(outer)} - set(outer)
            return size, outer, [node for node in nodes if node in near]
    return 0, list(nodes), []


class Answers(unittest.TestCase):
    def judged(self, answer):
        """The answer is a matching, each path of it is one, and exchanging its edges gives a
        matching that misses its node."""
        met = [node for index in answer.edge_indices for node in answer.instance.ends[index]]
        self.assertEqual(len(set(met)), 2 * answer.weight)
        self.assertEqual(set(answer.mate), set(met))
        for node in answer.decomposition.D:
            steps = answer.alternating_path(node)
            walk = [node] + [step[1] for step in steps]
            self.assertEqual([step[0] for step in steps], walk[:-1])
            self.assertEqual(
                (len(set(walk)), len(steps) % 2, walk[-1] in met), (len(walk), 0, False)
            )
            pairs = {frozenset((u, answer.mate[u])) for u in met} ^ {
                frozenset(step[:2]) for step in steps
            }
            self.assertEqual(
                (len(pairs), any(node in pair for pair in pairs)), (answer.weight, False)
            )
        for node in {*answer.decomposition.A, *answer.decomposition.C}:
            with self.assertRaisesRegex(ValueError, "no alternating path from"):
                answer.alternating_path(node)
        self.assertTrue(answer.check())

    def test_sets_and_paths(self):
        for edges, words, size, outer, border, rest in CASES:
            with self.subTest(edges=edges, words=words):
                answer = blossom.gallai_edmonds_decomposition(edges, **words)
                self.assertEqual(
                    (answer.weight, *answer.decomposition),
                    (size, list(outer), border, list(rest)),
                )
                self.judged(answer)

    def test_made_graphs_against_all_matchings(self):
        seen = set()
        for edges, words in instances("gallai", 60, seed=13):
            with self.subTest(edges=edges, words=words):
                nodes = list(
                    dict.fromkeys([*words["nodes"], *(end for edge in edges for end in edge[:2])])
                )
                answer = blossom.gallai_edmonds_decomposition(edges, nodes=words["nodes"])
                self.assertEqual(
                    (answer.weight, *answer.decomposition[:2]), sets_by_all(nodes, edges)
                )
                self.judged(answer)
                seen |= {name for name, found in answer.decomposition._asdict().items() if found}
        self.assertEqual(seen, set("DAC"))

    def test_the_same_by_the_library(self):
        library_or_skip()
        for edges, words, *known in CASES:
            with self.subTest(edges=edges, words=words):
                answer = blossom.gallai_edmonds_decomposition(edges, engine="library", **words)
                self.judged(answer)
                self.assertEqual(
                    answer.certificate,
                    blossom.gallai_edmonds_decomposition(edges, **words).certificate,
                )

    def test_a_wrong_set_is_refused(self):
        text = "s OPTIMAL gallai 1\nx 1 1\n"
        paths = "r 2 2 1 2\nr 3 0\nr 4 0\n"
        for lines, rule in (
            ("d 3 2 3 4\nu 1 1\n" + paths, None),
            ("d 3 2 3 4\nu 1 1\n", "PathMissing"),
            ("u 1 1\n", "PathMissing"),
            ("d 3 2 3 4\nu 0\n" + paths, "NotBarrier"),
            ("d 3 2 3 4\n" + paths, "NotBarrier"),
            ("d 3 2 3 4\nu 1 1\nr 2 0\nr 3 0\nr 4 0\n", "PathForm"),
            ("d 0\nu 0\n", "NotBarrier"),
            ("d 2 3 4\nu 1 1\nr 3 0\nr 4 0\n", "NotBarrier"),
            ("d 1 5\nu 0\n", "DocRange"),
            ("y 1 0\n", "DocForm"),
        ):
            verdict = blossom.check(STAR, "gallai", text + lines)
            self.assertEqual((bool(verdict), verdict.rule), (rule is None, rule), lines)

    def test_a_large_odd_ring(self):
        ring = [(node, (node + 1) % 301) for node in range(301)]
        chance = random.Random(6)
        chance.shuffle(ring)
        answer = blossom.gallai_edmonds_decomposition(ring)
        self.assertEqual(
            (answer.weight, len(answer.decomposition.D), answer.decomposition.A), (150, 301, [])
        )
        self.judged(answer)
        self.assertEqual(
            sum(map(len, answer.certificate.alternating_paths.values())), (301 * 301 - 1) // 2
        )


class Words(unittest.TestCase):
    TEXT = b"s OPTIMAL gallai 1\nx 2 1\nd 2 1 3\nu 1 2\nr 1 0\nr 3 2 2 1\n"

    def answer(self, text=TEXT):
        return blossom.gallai_edmonds_decomposition(
            [("a", "b", 0.5), ("b", "c", "much")], engine=StandIn(0, text)
        )

    def test_what_the_call_asks(self):
        stand_in = StandIn(0, b"s OPTIMAL gallai 0\nd 0\nu 0\n")
        blossom.gallai_edmonds_decomposition(STAR, nodes=["e"], timeout=3, engine=stand_in)
        blossom.gallai_edmonds_decomposition(
            blossom.Instance.from_graph([("a", "b", 7)], "gallai"), engine=stand_in
        )
        self.assertEqual(
            stand_in.asked,
            [
                ("solve", "gallai", b"p edge 5 3\ne 2 3 1\ne 2 4 1\ne 2 5 1\n", 3),
                ("solve", "gallai", b"p edge 2 1\ne 1 2 7\n", None),
            ],
        )
        with self.assertRaisesRegex(ValueError, "expected 'gallai', got 'perfect'"):
            blossom.gallai_edmonds_decomposition(blossom.Instance.from_graph(STAR, "perfect"))
        for words, said in (
            ({"degrees": {"hub": 1}}, "degrees= applies only"),
            ({"lower": 1}, "only to kind 'interval'"),
            ({"default_capacity": 1}, "default_capacity= applies only"),
        ):
            with self.assertRaisesRegex(blossom.GraphError, said):
                blossom.solve(STAR, "gallai", **words)

    def test_it_takes_no_weights(self):
        own, other = (
            inspect.signature(call).parameters
            for call in (solving.gallai_edmonds_decomposition, solving.min_weight_perfect_matching)
        )
        of_weights = {"weight", "scale", "rounding", "certificate"}
        of_dense_instances = {"costs", "points", "metric", "progress"}
        self.assertEqual(set(other) - set(own), of_weights | of_dense_instances)
        self.assertLess(set(own), set(other))

    def test_names_rows_and_words(self):
        answer = self.answer()
        self.assertEqual(
            (answer.weight, answer.edges, answer.mate), (1, [("b", "c")], {"b": "c", "c": "b"})
        )
        self.assertEqual(answer.decomposition, (["a", "c"], ["b"], []))
        self.assertEqual(
            (answer.alternating_path("a"), answer.alternating_path("c")),
            ([], [("c", "b"), ("b", "a")]),
        )
        self.assertEqual(repr(answer), "<gallai answer of weight 1: 1 edges>")
        self.assertEqual(fitted(answer.instance, answer.certificate.text).weight, 1)
        certificate = answer.certificate
        self.assertEqual(
            (certificate.barrier, certificate.document.outer, certificate.vertex_names),
            (["b"], [1, 3], ["a", "b", "c"]),
        )
        self.assertEqual(
            (
                certificate.duals,
                certificate.odd_sets,
                certificate.dual_value,
                certificate.closed_set,
            ),
            ({}, [], 0, None),
        )
        self.assertEqual(repr(certificate), "<certificate of gallai: optimal, 2 paths>")

    def test_what_proves_an_answer_are_all_paths(self):
        sets, _, paths = self.TEXT.partition(b"r 1")
        whole = [self.TEXT, b"s OPTIMAL gallai 1\nx 1 1\nd 0\nu 0\n"]
        parts = [sets, sets + b"r 1 0\n", b"s OPTIMAL gallai 1\nx 2 1\n"]
        self.assertEqual([read(text).is_whole() for text in whole + parts], 2 * [True] + 3 * [False])

    def test_a_brief_answer_has_the_sets_alone(self):
        answer = self.answer(self.TEXT.partition(b"r 1")[0])
        self.assertEqual(
            (answer.decomposition, answer.certificate.alternating_paths),
            ((["a", "c"], ["b"], []), {}),
        )
        with self.assertRaises(ValueError):
            answer.alternating_path("a")

    def test_other_kinds_have_no_such_sets(self):
        answer = blossom.min_weight_perfect_matching(
            [("a", "b")], engine=StandIn(0, b"s OPTIMAL perfect 1\nx 1 1\ny 1 1\ny 2 1\n")
        )
        self.assertEqual(
            (answer.decomposition, answer.certificate.alternating_paths),
            (None, {}),
        )

    def test_scaled_weights_are_no_sizes(self):
        answer = blossom.solve(
            [("a", "b", 0.5)],
            "gallai",
            scale=2,
            engine=StandIn(0, b"s OPTIMAL gallai 1\nx 1 1\nd 0\nu 0\n"),
        )
        self.assertEqual((answer.weight, answer.rows[0]["weight"]), (1, 0.5))

    def test_a_graph_of_networkx(self):
        graph = wanted("networkx").star_graph(3)
        text = b"s OPTIMAL gallai 1\nx 1 1\nd 3 2 3 4\nu 1 1\nr 2 2 1 2\nr 3 0\nr 4 0\n"
        answer = blossom.gallai_edmonds_decomposition(graph, engine=StandIn(0, text))
        self.assertEqual(
            (answer.decomposition[:2], answer.alternating_path(1)),
            (([1, 2, 3], [0]), [(1, 0), (0, 2)]),
        )


if __name__ == "__main__":
    unittest.main()
