"""Answers of each kind, in the caller's names."""
import pickle
import unittest
from fractions import Fraction

import blossom
from blossom.answers import answer_of
from support import STAR, TRIANGLES, instances, wanted

SQUARE = [(1, 2, 4), (2, 3, 4), (3, 4, 4), (1, 4, 4), (1, 3, 5)]


class Kinds(unittest.TestCase):
    def test_a_perfect_matching(self):
        answer = blossom.min_weight_perfect_matching(TRIANGLES)
        self.assertEqual((answer.weight, answer.kind), (12, "perfect"))
        self.assertIn(("c", "d"), answer.edges)
        self.assertEqual(sorted(answer.mate), list("abcdef"))
        self.assertTrue(all(answer.mate[answer.mate[node]] == node for node in "abcdef"))
        self.assertTrue(answer.check())

    def test_a_matching_of_greatest_weight(self):
        answer = blossom.max_weight_matching(
            [("a", "b", 3), ("b", "c", 5), ("c", "d", 3), ("d", "e", -1)]
        )
        self.assertEqual((answer.edges, answer.weight), ([("a", "b"), ("c", "d")], 6))
        self.assertNotIn("e", answer.mate)

    def test_a_bottleneck(self):
        answer = blossom.bottleneck_perfect_matching(
            [("a", "b", 1), ("c", "d", 9), ("a", "c", 5), ("b", "d", 6)]
        )
        self.assertEqual(
            (answer.edges, answer.weight, answer.kind), ([("a", "c"), ("b", "d")], 6, "bottleneck")
        )
        self.assertEqual(answer.mate, {"a": "c", "c": "a", "b": "d", "d": "b"})
        self.assertTrue(answer.check())

    def test_a_b_matching(self):
        answer = blossom.perfect_b_matching(
            [("a", "b", 4), ("b", "c", 1)], {"a": 2, "b": 3, "c": 1}
        )
        self.assertEqual(
            (answer.multiplicities, answer.weight, answer.edge_counts),
            ({("a", "b"): 2, ("b", "c"): 1}, 9, [2, 1]),
        )

    def test_a_b_matching_within_capacities(self):
        edges = [("a", "b", 1, 1), ("a", "b", 5, None)]
        answer = blossom.perfect_capacitated_b_matching(edges, {"a": 3, "b": 3})
        self.assertEqual(
            (answer.multiplicities, answer.weight), ({("a", "b", 0): 1, ("a", "b", 1): 2}, 11)
        )

    def test_a_factor(self):
        answer = blossom.f_factor(TRIANGLES + [("a", "f", 0)], dict.fromkeys("abcdef", 2))
        self.assertEqual((len(answer.edges), answer.weight), (6, 6))

    def test_a_join(self):
        answer = blossom.t_join([("a", "b", 1), ("b", "c", 1), ("a", "c", 5)], ["a", "c"])
        self.assertEqual((answer.edges, answer.weight), ([("a", "b"), ("b", "c")], 2))

    def test_a_tour(self):
        answer = blossom.chinese_postman(SQUARE)
        self.assertEqual(answer.weight, 26)
        self.assertEqual(
            (len(answer.edge_walk), len(answer.node_walk), answer.node_walk[0]),
            (6, 7, answer.node_walk[-1]),
        )
        self.assertEqual(answer.multiplicities[(1, 3)], 2)
        self.assertEqual(
            [step[1] for step in answer.edge_walk[:-1]], [step[0] for step in answer.edge_walk[1:]]
        )

    def test_a_tour_without_edges(self):
        answer = blossom.chinese_postman([], nodes=["a"])
        self.assertEqual((answer.node_walk, answer.edge_walk, answer.weight), ([], [], 0))

    def test_a_path_goes_the_way_that_is_asked(self):
        edges = [("a", "b", 1), ("b", "c", 1), ("a", "c", 5)]
        for source, target, walk in (("a", "c", ["a", "b", "c"]), ("c", "a", ["c", "b", "a"])):
            answer = blossom.shortest_path(edges, source, target)
            self.assertEqual((answer.node_walk, answer.weight), (walk, 2))
            self.assertEqual(answer.edge_walk, list(zip(walk, walk[1:])))
            self.assertEqual(
                [answer.instance.edges[index] for index in answer.edge_walk_indices],
                [
                    edge if edge in answer.instance.edges else edge[::-1]
                    for edge in answer.edge_walk
                ],
            )

    def test_an_edge_cover(self):
        edges = [("a", "b", 1), ("b", "c", 2), ("c", "d", 1), ("a", "d", 5), ("d", "e", 3)]
        answer = blossom.degree_constrained_subgraph(edges, lower=1)
        self.assertEqual(
            (answer.edges, answer.weight, answer.kind),
            ([("a", "b"), ("c", "d"), ("d", "e")], 5, "interval"),
        )
        self.assertTrue(answer.check())
        answer = blossom.degree_constrained_subgraph(
            edges, lower=1, upper={"d": 1}, default_capacity=2
        )
        self.assertEqual(
            (answer.multiplicities, answer.weight),
            ({("a", "b"): 1, ("b", "c"): 1, ("d", "e"): 1}, 6),
        )

    def test_degrees_between_bounds(self):
        edges = [
            ("a", "b", -4),
            ("b", "c", -3),
            ("c", "a", -2),
            ("c", "d", -1),
            ("d", "d", -5),
            ("a", "d", 9),
        ]
        for how, weight, counts in (
            ({"upper": 1}, -5, [1, 0, 0, 1, 0, 0]),
            ({"upper": 2}, -14, [1, 1, 1, 0, 1, 0]),
            (
                {"upper": {"a": 2, "b": 2, "c": 0, "d": 1}, "default_capacity": 2},
                -8,
                [2, 0, 0, 0, 0, 0],
            ),
            ({"upper": {"d": 0}}, -9, [1, 1, 1, 0, 0, 0]),
            ({"lower": {"d": 1}, "upper": {"b": 0, "d": 1}}, -3, [0, 0, 1, 1, 0, 0]),
        ):
            answer = blossom.degree_constrained_subgraph(edges, **how)
            with self.subTest(how=how):
                self.assertEqual((answer.weight, answer.edge_counts), (weight, counts))

    def test_paths_of_a_parity(self):
        edges = [("a", "b", 1), ("b", "c", 1), ("c", "d", 1), ("b", "d", 4)]
        for parity, walk, weight in ((None, "abcd", 3), ("odd", "abcd", 3), ("even", "abd", 5)):
            for source, target, steps in (("a", "d", walk), ("d", "a", walk[::-1])):
                answer = blossom.shortest_path(edges, source, target, parity=parity)
                self.assertEqual(
                    ("".join(answer.node_walk), answer.weight, len(answer.edge_walk)),
                    (steps, weight, len(walk) - 1),
                )
                self.assertTrue(answer.check())

    def test_loops(self):
        edges = [("a", "a", 3), ("a", "b", 5), ("b", "b", 4)]
        both = {"a": 3, "b": 3}
        for answer, weight, used in (
            (blossom.min_weight_perfect_matching(edges), 5, [1]),
            (blossom.max_weight_matching(edges), 5, [1]),
            (blossom.bottleneck_perfect_matching(edges), 5, [1]),
            (blossom.perfect_b_matching(edges, both), 12, [0, 1, 2]),
            (blossom.perfect_b_matching(edges, {"a": 4, "b": 0}), 6, [0]),
            (blossom.f_factor(edges, both), 12, [0, 1, 2]),
            (blossom.t_join(edges, ["a", "b"]), 5, [1]),
            (
                blossom.perfect_capacitated_b_matching(
                    [(*edge, 1) for edge in edges], {"a": 3, "b": 1}
                ),
                8,
                [0, 1],
            ),
            (blossom.t_join([("a", "a", -3), ("a", "b", 5)], []), -3, [0]),
            (blossom.degree_constrained_subgraph(edges, 2), 7, [0, 2]),
            (blossom.degree_constrained_subgraph(edges, 3), 12, [0, 1, 2]),
            (blossom.degree_constrained_subgraph(edges, {"a": 1}, 1), 5, [1]),
            (
                blossom.degree_constrained_subgraph(
                    edges, 2, {"a": 2, "b": 2}, default_capacity=None
                ),
                7,
                [0, 2],
            ),
            (blossom.chinese_postman(edges), 17, [0, 1, 2]),
            (blossom.shortest_path(edges, "b", "a"), 5, [1]),
            (blossom.shortest_path(edges, "b", "a", parity="odd"), 5, [1]),
        ):
            with self.subTest(kind=answer.kind):
                self.assertEqual((answer.weight, answer.edge_indices), (weight, used))
                self.assertTrue(answer.check())
        tour = blossom.chinese_postman(edges)
        self.assertEqual(sorted(tour.node_walk), ["a", "a", "a", "b", "b"])
        self.assertIn(("b", "b"), tour.edge_walk)

    def test_a_path_may_use_what_weighs_less_than_0(self):
        self.assertEqual(
            blossom.shortest_path(
                [("a", "b", 3), ("b", "c", -1), ("a", "c", 4)], "a", "c"
            ).node_walk,
            ["a", "b", "c"],
        )


class Whole(unittest.TestCase):
    def test_made_instances_are_answered_and_accepted(self):
        for kind in blossom.KINDS:
            for edges, words in instances(kind, 12):
                with self.subTest(kind=kind, edges=edges, words=words):
                    certificate = outcome(edges, kind, words)
                    self.assertTrue(certificate.check())
                    self.assertTrue(blossom.check(edges, kind, str(certificate), **words))

    def test_the_units_are_the_callers(self):
        halves = [(u, v, weight / 2) for u, v, weight in TRIANGLES]
        self.assertEqual(blossom.min_weight_perfect_matching(halves, scale=2).weight, 6)
        answer = blossom.min_weight_perfect_matching([("a", "b", 0.25)], scale=1000)
        self.assertEqual(
            (answer.weight, answer.certificate.dual_value), (Fraction(1, 4), Fraction(1, 4))
        )

    def test_brief_answers_prove_nothing(self):
        answer = blossom.min_weight_perfect_matching(TRIANGLES, certificate=False)
        self.assertEqual(
            (answer.weight, answer.certificate.duals, answer.certificate.odd_sets), (12, {}, [])
        )
        self.assertEqual(answer.check().rule, "DualMissing")
        answer = blossom.bottleneck_perfect_matching(TRIANGLES, certificate=False)
        self.assertEqual(
            (answer.weight, answer.certificate.barrier, answer.check().rule),
            (10, None, "NotBarrier"),
        )

    def test_answers_can_be_pickled(self):
        answer = pickle.loads(pickle.dumps(blossom.min_weight_perfect_matching(TRIANGLES)))
        self.assertEqual(answer.weight, 12)
        self.assertTrue(answer.check())

    def test_an_instance_serves_for_several_calls(self):
        of = blossom.Instance.from_graph(TRIANGLES, "perfect")
        answer = blossom.solve(of, "perfect")
        self.assertTrue(blossom.check(of, "perfect", answer))
        with self.assertRaises(ValueError):
            blossom.solve(of, "match")
        with self.assertRaises(TypeError):
            blossom.solve(of, "perfect", scale=2)

    def test_a_graph_of_the_used_edges(self):
        networkx = wanted("networkx")
        graph = blossom.chinese_postman(SQUARE).to_networkx()
        self.assertTrue(networkx.is_eulerian(graph))
        self.assertEqual((graph.number_of_edges(1, 3), graph.size(weight="weight")), (2, 26))
        graph = blossom.chinese_postman([*SQUARE, (2, 2, 7)]).to_networkx()
        self.assertEqual((graph.number_of_edges(2, 2), graph.size(weight="weight")), (1, 33))


class NoAnswer(unittest.TestCase):
    def refused(self, error, call, *words, **how):
        with self.assertRaises(error) as told:
            call(*words, **how)
        self.assertTrue(told.exception.certificate.check())
        again = pickle.loads(pickle.dumps(told.exception))
        self.assertEqual((type(again), str(again)), (error, str(told.exception)))
        return told.exception

    def test_a_barrier(self):
        told = self.refused(blossom.Infeasible, blossom.min_weight_perfect_matching, STAR)
        self.assertEqual((told.barrier, told.closed_set), (["hub"], None))
        self.assertIn("removing 'hub' leaves more than 1 odd components", str(told))
        told = self.refused(
            blossom.Infeasible, blossom.perfect_b_matching, [("a", "b", 1)], {"a": 1, "b": 2}
        )
        self.assertEqual(told.barrier, [("a", 0)])

    def test_a_barrier_by_halves_and_sides(self):
        told = self.refused(
            blossom.Infeasible, blossom.degree_constrained_subgraph, [("a", "b", 1)], {"a": 2}
        )
        self.assertIn("node 'a' must have degree at least 2, and its edges allow 1", str(told))
        self.assertTrue({type(name) for name in told.barrier} <= {blossom.vertices.Mirror})
        told = self.refused(
            blossom.Infeasible,
            blossom.shortest_path,
            [("a", "b"), ("b", "c")],
            "a",
            "c",
            parity="odd",
        )
        self.assertEqual((told.barrier, told.closed_set), ([("b", 0)], None))
        self.assertIsInstance(told.barrier[0], blossom.vertices.Layer)
        told = self.refused(
            blossom.Infeasible, blossom.shortest_path, [("a", "b")], "a", "b", parity="even"
        )
        self.assertEqual((told.barrier, told.closed_set), ([], None))
        told = self.refused(
            blossom.Infeasible,
            blossom.shortest_path,
            [("a", "b"), ("c", "d")],
            "c",
            "b",
            parity="odd",
        )
        self.assertEqual(told.closed_set, None)

    def test_an_odd_part(self):
        told = self.refused(
            blossom.Infeasible, blossom.t_join, [(1, 2), (1, 4)], [1, 3], nodes=[1, 2, 3, 4]
        )
        self.assertEqual((told.barrier, told.closed_set), (None, [1, 2, 4]))
        self.refused(blossom.Infeasible, blossom.shortest_path, [(1, 2), (3, 4)], 1, 4)

    def test_a_split_part(self):
        self.assertEqual(
            self.refused(blossom.Infeasible, blossom.chinese_postman, [(1, 2), (3, 4)]).closed_set,
            [1, 2],
        )

    def test_a_circuit_below_0(self):
        told = self.refused(
            blossom.NegativeCycle,
            blossom.shortest_path,
            [(1, 2, 1), (2, 3, -3), (3, 4, 1), (2, 4, 1)],
            1,
            4,
        )
        self.assertEqual(
            {frozenset(step) for step in told.negative_cycle},
            {frozenset(pair) for pair in ((2, 3), (3, 4), (4, 2))},
        )

    def test_a_path_is_no_negative_cycle(self):
        found = blossom.solve([("a", "b", 1)], "path", source="a", target="b")
        self.assertEqual(found.certificate.document.walk, (1, [1]))
        self.assertIsNone(found.certificate.negative_cycle)

    def test_a_document_of_something_else(self):
        for text, words in (
            (b"s OPTIMAL match 5\nx 1 1\n", "expected perfect, got match"),
            (b"s OPTIMAL perfect 5\nx 2 1\n", "refers to edge 2"),
            (b"s OPTIMAL perfect 5\nx 1 1\nx 0 1\n", "refers to edge 0"),
            (b"s OPTIMAL perfect 5\nx -1 1\nx 1 1\n", "refers to edge -1"),
            (b"s INFEASIBLE perfect\nu 2 1 3\n", "refers to node 3, but the graph has 2"),
            (b"s INFEASIBLE perfect\nu 1 0\n", "refers to node 0"),
        ):
            with self.assertRaisesRegex(blossom.SolverError, words):
                answer_of(blossom.Instance.from_graph([("a", "b", 5)], "perfect"), 0, text)

    def test_steps_of_a_walk_along_parallel_edges(self):
        streets = [("a", "b", 1), ("b", "a", 2), ("b", "c", 3), ("c", "c", 4), ("c", "a", 5),
                   ("a", "c", 6)]
        of = blossom.Instance.from_graph(streets, "postman")
        text = b"s OPTIMAL postman 26\nw 2 7 2 1 3 4 5 6 3\n"
        answer = answer_of(of, 0, text)
        self.assertEqual(
            answer.edge_walk,
            [("b", "a", 1), ("a", "b", 0), ("b", "c", 0), ("c", "c", 0), ("c", "a", 0),
             ("a", "c", 1), ("c", "b", 0)],
        )
        self.assertEqual(answer.node_walk, list("babccacb"))
        self.assertEqual(answer.edge_counts, [1, 1, 2, 1, 1, 1])

    def test_a_brief_refusal_has_no_barrier(self):
        with self.assertRaises(blossom.Infeasible) as told:
            blossom.min_weight_perfect_matching(STAR, certificate=False)
        self.assertIsNone(told.exception.barrier)
        self.assertEqual(str(told.exception), "no perfect matching exists")

    def test_a_graph_whose_certificates_are_too_large(self):
        with self.assertRaises(blossom.LimitExceeded) as told:
            blossom.perfect_b_matching([("a", "b", 1)], {"a": 4096, "b": 4096})
        self.assertEqual((told.exception.vertices, told.exception.edges), (8192, 4096 * 4096))


class Checks(unittest.TestCase):
    def test_wrong_documents_are_refused_by_their_rule(self):
        for document, rule, line in (
            ("s OPTIMAL perfect 4\nx 1 1\ny 1 4\ny 2 4\n", "WeightDiffers", 3),
            ("", "DocForm", 3),
            (b"s OPTIMAL match 5\nx 1 1\n", "KindDiffers", 3),
            ("s OPTIMAL perfect 5\nx 1 1\ny 1 5\ny 2 6\n", "Slack", 3),
        ):
            verdict = blossom.check([("a", "b", 5)], "perfect", document)
            self.assertEqual((bool(verdict), verdict.rule, verdict.line), (False, rule, line))

    def test_an_answer_of_another_graph_is_refused(self):
        answer = blossom.min_weight_perfect_matching([("a", "b", 5)])
        self.assertTrue(blossom.check([("a", "b", 5)], "perfect", answer))
        self.assertFalse(blossom.check([("a", "b", 4)], "perfect", answer))


def outcome(edges, kind, words):
    """The certificate of the answer, or of what shows that there is none."""
    try:
        return blossom.solve(edges, kind, **words).certificate
    except blossom.NoOptimum as told:
        return told.certificate
