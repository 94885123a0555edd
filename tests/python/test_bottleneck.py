"""Perfect matchings whose heaviest edge is as light as can be: their weight, and the barrier of
the lighter edges, against all matchings."""
import inspect
import random
import unittest
from fractions import Fraction

import blossom
from blossom import solving
from blossom.fitting import fitted
from support import STAR, StandIn, instances, library_or_skip, wanted
from test_certificates import odd_components

LINE = [("a", "b", 1), ("b", "c", 7), ("c", "d", 2)]
# The edges, words of the call, the weight, and the places of the edges where only one answer has
# it.
CASES = (
    (LINE, {}, 2, [0, 2]),
    # Not the least sum: 1 and 9 weigh less than 6 and 5 together, but 9 is heavier than 6.
    ([("a", "b", 1), ("c", "d", 9), ("a", "c", 5), ("b", "d", 6)], {}, 6, [2, 3]),
    ([("a", "b", 4), ("b", "c", 4), ("c", "d", 4), ("a", "d", 4)], {}, 4, None),
    ([("a", "b", 0), ("c", "d", 0)], {}, 0, [0, 1]),
    ([("a", "b", -5), ("c", "d", -2), ("a", "c", -3), ("b", "d", -4)], {}, -3, [2, 3]),
    ([("a", "b", -(10**12)), ("c", "d", 10**12)], {}, 10**12, [0, 1]),
    ([("a", "b", 3), ("b", "a", 2), ("a", "b", 2), ("a", "b", 5)], {}, 2, None),
    ([("a", "b", 3), ("a", "b", 2)], {}, 2, [1]),
    ([("a", "a", 0), ("a", "b", 5), ("b", "b", 0)], {}, 5, [1]),
    ([("a", "a", 9), ("a", "b", 5), ("b", "b", 9)], {}, 5, [1]),
    ([("a", "b", 1.5), ("c", "d", 0.25)], {"scale": 4}, Fraction(3, 2), [0, 1]),
    ([("a", "b", 1.5), ("c", "d", 0.25)], {"scale": "finest"}, Fraction(3, 2), [0, 1]),
    ([("a", "b", -0.5)], {"scale": 2}, Fraction(-1, 2), [0]),
    ([("a", "b", 1.4), ("c", "d", 0.6)], {"rounding": "nearest"}, 1, [0, 1]),
    ([("a", "b", 8), ("c", "d", 9)], {"weight": None}, 1, [0, 1]),
    ([("a", "b", {"length": 8}), ("c", "d", {"length": 7})], {"weight": "length"}, 8, [0, 1]),
    ([], {}, 0, []),
)
# What has no perfect matching: the edges, words of the call, and the barrier where only one is.
NONE = (
    (STAR, {}, ["hub"]),
    ([("a", "b", 1), ("b", "c", 1)], {}, None),
    ([], {"nodes": ["a"]}, []),
    (LINE, {"nodes": ["e", "f"]}, None),
    ([("a", "a", 1)], {}, []),
    ([("a", "a", -1), ("b", "b", -1), ("a", "b", 2)], {"nodes": ["c"]}, None),
)


def least(nodes, edges):
    """The weight of the heaviest edge of the perfect matching where that is lightest, by all of
    them; None where there is none."""
    if not nodes:
        return -(10**13)
    first, found = nodes[0], []
    for u, v, weight, *_ in edges:
        if first in (u, v) and u != v:
            left = [node for node in nodes if node not in (u, v)]
            rest = least(left, [edge for edge in edges if not {u, v} & set(edge[:2])])
            found += [max(weight, rest)] if rest is not None else []
    return min(found, default=None)


class Answers(unittest.TestCase):
    def judged(self, answer):
        """The answer is a perfect matching of its weight, and its barrier one of the lighter
        edges."""
        of, weight = answer.instance, answer.certificate.document.weight
        met = [node for index in answer.edge_indices for node in of.ends[index]]
        self.assertEqual(sorted(met), sorted(of.nodes))
        self.assertEqual(
            weight, max((of.weights[index] for index in answer.edge_indices), default=0)
        )
        self.assertEqual(
            {node: answer.mate[answer.mate[node]] for node in of.nodes},
            {node: node for node in of.nodes},
        )
        self.assertEqual(answer.weight, Fraction(weight) / of.scale)
        if of.nodes:
            lighter = [(*ends, own) for ends, own in zip(of.ends, of.weights) if own < weight]
            self.assertGreater(
                odd_components(of.nodes, lighter, answer.certificate.barrier),
                len(answer.certificate.barrier),
            )
        else:
            self.assertIsNone(answer.certificate.barrier)
        self.assertTrue(answer.check())

    def test_the_weight_is_that_of_the_heaviest_edge(self):
        for edges, words, weight, used in CASES:
            with self.subTest(edges=edges, words=words):
                answer = blossom.bottleneck_perfect_matching(edges, **words)
                self.assertEqual(
                    (answer.weight, isinstance(answer.weight, type(weight))), (weight, True)
                )
                self.assertTrue(used is None or answer.edge_indices == used, answer.edge_indices)
                self.judged(answer)

    def test_what_has_no_answer(self):
        for edges, words, barrier in NONE:
            with self.subTest(edges=edges, words=words):
                with self.assertRaisesRegex(
                    blossom.Infeasible, "no perfect matching exists: "
                ) as told:
                    blossom.bottleneck_perfect_matching(edges, **words)
                found = told.exception
                self.assertTrue(barrier is None or found.barrier == barrier, found.barrier)
                self.assertGreater(
                    odd_components(found.certificate.instance.nodes, edges, found.barrier),
                    len(found.barrier),
                )
                self.assertTrue(found.certificate.check())

    def test_made_graphs_against_all_matchings(self):
        seen = set()
        for edges, words in instances("bottleneck", 60, seed=12):
            with self.subTest(edges=edges, words=words):
                nodes = list(
                    dict.fromkeys([*words["nodes"], *(end for edge in edges for end in edge[:2])])
                )
                known = least(nodes, edges)
                try:
                    answer = blossom.solve(edges, "bottleneck", **words)
                except blossom.Infeasible:
                    self.assertIsNone(known)
                    seen.add("none")
                    continue
                self.assertEqual(answer.weight, known)
                self.judged(answer)
                seen.add("below 0" if known < 0 else "above")
        self.assertEqual(seen, {"none", "below 0", "above"})

    def test_it_never_weighs_more_than_what_weighs_least_together(self):
        chance = random.Random(5)
        for _ in range(10):
            edges = [(u, v, chance.randint(0, 99)) for v in range(8) for u in range(v)]
            heaviest = max(row["weight"] for row in blossom.min_weight_perfect_matching(edges).rows)
            self.assertLessEqual(blossom.bottleneck_perfect_matching(edges).weight, heaviest)

    def test_the_same_by_the_library(self):
        library_or_skip()
        for edges, words, weight, _ in CASES:
            with self.subTest(edges=edges, words=words):
                answer = blossom.bottleneck_perfect_matching(edges, engine="library", **words)
                self.assertEqual(answer.weight, weight)
                self.judged(answer)
                self.assertEqual(
                    answer.certificate,
                    blossom.bottleneck_perfect_matching(edges, **words).certificate,
                )
        for edges, words, _ in NONE:
            with self.assertRaises(blossom.Infeasible) as told:
                blossom.bottleneck_perfect_matching(edges, engine="library", **words)
            self.assertTrue(told.exception.certificate.check())

    def test_a_wrong_barrier_is_refused(self):
        graph, text = CASES[1][0], "s OPTIMAL bottleneck 6\nx 3 1\nx 4 1\n"
        for lines, rule in (
            ("u 1 1\n", None),
            ("u 0\n", None),
            ("", "NotBarrier"),
            ("u 1 4\n", "NotBarrier"),
            ("u 2 1 4\n", "NotBarrier"),
            ("u 1 5\n", "DocRange"),
            ("y 1 3\nu 1 1\n", "DocForm"),
        ):
            verdict = blossom.check(graph, "bottleneck", text + lines)
            self.assertEqual((bool(verdict), verdict.rule), (rule is None, rule), lines)
        verdict = blossom.check(
            graph, "bottleneck", "s OPTIMAL bottleneck 9\nx 1 1\nx 2 1\nu 1 1\n"
        )
        self.assertEqual(verdict.rule, "NotBarrier")
        verdict = blossom.check(
            graph, "bottleneck", "s OPTIMAL bottleneck 11\nx 3 1\nx 4 1\nu 1 1\n"
        )
        self.assertEqual((verdict.rule, verdict.line), ("WeightDiffers", 6))

    def test_several_at_once(self):
        answers = blossom.solve_many(
            "bottleneck",
            [edges for edges, words, *_ in CASES if not words] + [STAR],
            errors="return",
        )
        self.assertEqual(
            [one.weight for one in answers[:-1]], [case[2] for case in CASES if not case[1]]
        )
        self.assertIsInstance(answers[-1], blossom.Infeasible)


class Words(unittest.TestCase):
    def answer(self, text=b"s OPTIMAL bottleneck 6\nx 3 1\nx 4 1\nu 2 1 4\n", **words):
        edges = [("a", "b", 0.5), ("c", "d", 4.5), ("a", "c", 2.5), ("b", "d", 3)]
        return blossom.bottleneck_perfect_matching(edges, scale=2, engine=StandIn(0, text), **words)

    def test_what_the_call_asks(self):
        stand_in = StandIn(0, b"s OPTIMAL bottleneck 0\n")
        blossom.bottleneck_perfect_matching(LINE, nodes=["e"], timeout=3, engine=stand_in)
        blossom.bottleneck_perfect_matching(LINE, weight=None, certificate=False, engine=stand_in)
        blossom.bottleneck_perfect_matching(
            blossom.Instance.from_graph(LINE, "bottleneck"), engine=stand_in
        )
        text = b"4 3\ne 1 2 1\ne 2 3 7\ne 3 4 2\n"
        self.assertEqual(
            stand_in.asked,
            [
                ("solve", "bottleneck", b"p edge 5 3\ne 2 3 1\ne 3 4 7\ne 4 5 2\n", 3),
                ("brief", "bottleneck", b"p edge 4 3\ne 1 2 1\ne 2 3 1\ne 3 4 1\n", None),
                ("solve", "bottleneck", b"p edge " + text, None),
            ],
        )
        with self.assertRaisesRegex(ValueError, "expected 'bottleneck', got 'perfect'"):
            blossom.bottleneck_perfect_matching(blossom.Instance.from_graph(LINE, "perfect"))
        for words, said in (
            ({"degrees": {"a": 1}}, "degrees= applies only"),
            ({"terminals": "a"}, "terminals= applies only"),
            ({"lower": 1}, "only to kind 'interval'"),
            ({"source": "a", "target": "b"}, "only to kinds 'path'"),
            ({"default_capacity": 1}, "default_capacity= applies only"),
        ):
            with self.assertRaisesRegex(blossom.GraphError, said):
                blossom.solve(LINE, "bottleneck", **words)

    def test_its_words_are_those_of_a_perfect_matching(self):
        own, other = (
            dict(inspect.signature(call).parameters)
            for call in (solving.bottleneck_perfect_matching, solving.min_weight_perfect_matching)
        )
        for word in ("costs", "points", "metric", "progress"):
            other.pop(word)
        self.assertEqual(list(own), list(other))
        for word in set(own) - {"graph", "scale"}:
            self.assertEqual(own[word], other[word])

    def test_units_rows_and_words(self):
        answer = self.answer()
        self.assertEqual(
            (answer.weight, answer.multiplicities, answer.edge_counts),
            (3, {("a", "c"): 1, ("b", "d"): 1}, [0, 0, 1, 1]),
        )
        self.assertEqual(
            (answer.mate, answer.node_walk, answer.edge_walk),
            ({"a": "c", "c": "a", "b": "d", "d": "b"}, [], []),
        )
        self.assertEqual(
            answer.rows,
            [
                {"u": "a", "v": "c", "weight": Fraction(5, 2), "count": 1},
                {"u": "b", "v": "d", "weight": 3, "count": 1},
            ],
        )
        self.assertEqual(repr(answer), "<bottleneck answer of weight 3: 2 edges>")
        self.assertEqual(
            self.answer(b"s OPTIMAL bottleneck 5\nx 3 1\nx 4 1\nu 0\n").weight, Fraction(5, 2)
        )
        self.assertEqual(fitted(answer.instance, answer.certificate.text).weight, 3)

    def test_a_certificate_has_a_barrier_and_no_duals(self):
        certificate = self.answer().certificate
        self.assertEqual(
            (certificate.barrier, certificate.closed_set, certificate.negative_cycle),
            (["a", "d"], None, None),
        )
        self.assertEqual(
            (
                certificate.duals,
                certificate.odd_sets,
                certificate.laminar_sets,
                certificate.dual_value,
            ),
            ({}, [], [], 0),
        )
        self.assertEqual(certificate.vertex_names, ["a", "b", "c", "d"])
        self.assertEqual(
            repr(certificate), "<certificate of bottleneck: optimal, a barrier of 2 nodes>"
        )
        brief = self.answer(
            b"s OPTIMAL bottleneck 6\nx 3 1\nx 4 1\n", certificate=False
        ).certificate
        self.assertEqual(
            (brief.barrier, repr(brief)),
            (None, "<certificate of bottleneck: optimal, 0 duals, 0 odd sets>"),
        )
        empty = self.answer(b"s OPTIMAL bottleneck 6\nx 3 1\nx 4 1\nu 0\n").certificate
        self.assertEqual(
            (empty.barrier, repr(empty)),
            ([], "<certificate of bottleneck: optimal, a barrier of 0 nodes>"),
        )

    def test_nothing_at_all(self):
        answer = blossom.bottleneck_perfect_matching(
            [], engine=StandIn(0, b"s OPTIMAL bottleneck 0\n")
        )
        self.assertEqual(
            (answer.weight, answer.edges, answer.mate, answer.rows, answer.certificate.barrier),
            (0, [], {}, [], None),
        )
        self.assertEqual(fitted(answer.instance, answer.certificate.text).weight, 0)
        self.assertIn("heaviest edge is lightest: 0", answer.draw().svg())

    def test_a_graph_of_the_used_edges(self):
        wanted("networkx")
        graph = self.answer().to_networkx()
        self.assertEqual(
            (sorted(map(sorted, graph.edges())), graph.size(weight="weight")),
            ([["a", "c"], ["b", "d"]], Fraction(11, 2)),
        )


if __name__ == "__main__":
    unittest.main()
