"""Degrees between bounds and paths of a given parity: what callers say of them, as numbers, and
what is refused."""
import random
import re
import unittest

import blossom
from blossom.vertices import vertex_names, is_subdivision, node_of
from blossom.fitting import fitted
from support import StandIn, instances, wanted

EDGES = [("a", "b", 1), ("b", "c", 2), ("c", "d", 1), ("a", "d", 5), ("d", "e", 3)]
CAPPED = [("a", "b", 1, 3), ("b", "b", 1, 2), ("b", "c", 1, None)]
# The graph, what is said of it, and the bounds of its nodes in the order in which the edges name
# them.
BOUNDS = (
    (EDGES, {"upper": 2}, [(0, 2)] * 5),
    (
        EDGES,
        {"lower": 1, "upper": {"a": 2, "b": 2, "c": 1, "d": 3, "e": 4096}},
        [(1, 2), (1, 2), (1, 1), (1, 3), (1, 4096)],
    ),
    (EDGES, {"lower": {"d": 2}, "upper": 3}, [(0, 3), (0, 3), (0, 3), (2, 3), (0, 3)]),
    # Without an upper bound what the edges of a node allow, and at least the lower bound.
    (EDGES, {"default_capacity": 1}, [(0, 2), (0, 2), (0, 2), (0, 3), (0, 1)]),
    (EDGES, {"lower": 1, "default_capacity": 2}, [(1, 4), (1, 4), (1, 4), (1, 6), (1, 2)]),
    (EDGES, {"default_capacity": 0}, [(0, 0)] * 5),
    (EDGES, {"lower": {"e": 3}, "default_capacity": 1}, [(0, 2), (0, 2), (0, 2), (0, 3), (3, 3)]),
    (EDGES, {"upper": {"a": 7, "d": 2, "c": 0}}, [(0, 7), (0, 7), (0, 0), (0, 2), (0, 2)]),
    (
        EDGES,
        {"upper": {"b": 0, "d": 1}, "default_capacity": 3},
        [(0, 1), (0, 0), (0, 1), (0, 1), (0, 1)],
    ),
    (CAPPED, {"default_capacity": 1}, [(0, 3), (0, 8), (0, 1)]),
    (CAPPED, {"upper": {"c": 5}}, [(0, 3), (0, 12), (0, 5)]),
    (CAPPED, {"upper": {"a": 2, "c": 0}, "lower": {"b": 6}}, [(0, 2), (6, 6), (0, 0)]),
    ([("a", "b", {"weight": 3, "limit": 2})], {"capacity": "limit"}, [(0, 2), (0, 2)]),
    ([("a", "b")], {"default_capacity": 1, "nodes": ["x"]}, [(0, 0), (0, 1), (0, 1)]),
    ([("a", "b")], {"lower": 1, "upper": 2.0, "nodes": ["x"]}, [(1, 2)] * 3),
    ([], {"lower": 1, "nodes": ["x"]}, [(1, 1)]),
    ([], {"lower": 1, "upper": 2}, []),
)
REFUSED = (
    (
        EDGES,
        {},
        blossom.GraphError,
        r"edge \('a', 'b'\) is unbounded: give it a capacity, give one of its ends an upper"
        " bound, or pass default_capacity=1",
    ),
    (EDGES, {"upper": {"a": 1, "b": 1}}, blossom.GraphError, r"edge \('c', 'd'\) is unbounded"),
    (CAPPED, {"lower": 1}, blossom.GraphError, r"edge \('b', 'c'\) is unbounded"),
    (
        EDGES,
        {"lower": 2, "upper": 1},
        blossom.GraphError,
        "^lower bound exceeds upper bound at node 'a': 2 > 1$",
    ),
    (
        EDGES,
        {"lower": {"d": 4}, "upper": 3},
        blossom.GraphError,
        "^lower bound exceeds upper bound at node 'd': 4 > 3$",
    ),
    (
        EDGES,
        {"lower": {"z": 1}, "default_capacity": 1},
        blossom.GraphError,
        "^node 'z' isn't in the graph$",
    ),
    (EDGES, {"upper": {"a": 1, "y": 1}}, blossom.GraphError, "^node 'y' isn't in the graph$"),
    (
        EDGES,
        {"lower": -1, "default_capacity": 1},
        blossom.GraphError,
        "lower bound of node 'a' must be a nonnegative integer, got -1",
    ),
    (
        EDGES,
        {"upper": {"b": 1.5}},
        blossom.GraphError,
        "upper bound of node 'b' must be a nonnegative integer, got 1.5",
    ),
    (
        EDGES,
        {"upper": {"b": None}},
        blossom.GraphError,
        "upper bound of node 'b' must be a nonnegative integer, got None",
    ),
    (EDGES, {"upper": [1, 2]}, TypeError, "upper= must be a mapping from nodes, a number for all"),
    (
        EDGES,
        {"upper": 4097},
        blossom.LimitExceeded,
        "upper bound of node 'a' is 4097, above the limit 4096",
    ),
    (
        EDGES,
        {"lower": 4097, "upper": 5000},
        blossom.LimitExceeded,
        "is 4097, above the limit 4096",
    ),
    (
        4097 * [("a", "b")],
        {"default_capacity": 1},
        blossom.LimitExceeded,
        "the edges at node 'a' allow degree 4097, above the limit 4096: give the node an upper"
        " bound",
    ),
    (
        EDGES,
        {"default_capacity": -1},
        blossom.GraphError,
        "default_capacity= must be a nonnegative integer or None, got -1",
    ),
    (
        EDGES,
        {"default_capacity": "many"},
        blossom.GraphError,
        "default_capacity= must be a nonnegative integer or None, got 'many'",
    ),
    (
        EDGES,
        {"lower": "need", "default_capacity": 1},
        blossom.GraphError,
        "lower='need' names a node attribute, but this graph has no node attributes: pass a mapping",
    ),
    (
        EDGES,
        {"degrees": {"a": 1}, "default_capacity": 1},
        blossom.GraphError,
        "degrees= applies only to kinds .*, got kind 'interval'",
    ),
    (
        EDGES,
        {"terminals": ["a"], "default_capacity": 1},
        blossom.GraphError,
        "terminals= applies only to kind 'tjoin', got kind 'interval'",
    ),
    (
        EDGES,
        {"source": "a", "target": "b", "default_capacity": 1},
        blossom.GraphError,
        "source= and target= apply only to kinds .*, got kind 'interval'",
    ),
)


def is_feasible(instance, counts):
    """Whether these uses of the edges meet each node between its bounds, within the capacities."""
    met = dict.fromkeys(instance.nodes, 0)
    for (first, second), count in zip(instance.ends, counts):
        met[first] += count
        met[second] += count
    return all(
        most is None or count <= most for count, most in zip(counts, instance.capacities)
    ) and all(
        lower <= met[node] <= upper for node, (lower, upper) in zip(instance.nodes, instance.bounds)
    )


class Bounds(unittest.TestCase):
    def test_the_bounds_of_each_node(self):
        for edges, words, bounds in BOUNDS:
            with self.subTest(words=words, edges=edges):
                of = blossom.Instance.from_graph(edges, "interval", **words)
                self.assertEqual(of.bounds, bounds)
                self.assertEqual(of.values, [upper for _, upper in bounds])
                usual = all(both == (0, 1) for both in bounds)
                self.assertEqual(
                    of._numbers.values.tolist(),
                    [] if usual else [one for both in bounds for one in both],
                )

    def test_what_is_refused(self):
        for edges, words, error, said in REFUSED:
            with self.subTest(words=words), self.assertRaisesRegex(error, said) as told:
                blossom.Instance.from_graph(edges, "interval", **words)
            self.assertIs(type(told.exception), error)

    def test_an_upper_bound_that_nobody_gives_excludes_nothing(self):
        chance = random.Random(3)
        for edges, words in instances("interval", 60, seed=11):
            words.pop("upper", None)
            least = blossom.Instance.from_graph(
                edges, "interval", **{**words, "default_capacity": 2}
            )
            most = blossom.Instance.from_graph(
                edges, "interval", **{**words, "default_capacity": 2, "upper": 4096}
            )
            for _ in range(40):
                counts = [chance.choice((0, 0, 1, 2)) for _ in edges]
                self.assertEqual(is_feasible(least, counts), is_feasible(most, counts))

    def test_bounds_are_those_of_one_kind(self):
        for kind in blossom.KINDS:
            for words, asked in (
                ({"lower": 1}, kind == "interval"),
                ({"upper": 1}, kind == "interval"),
                ({"default_capacity": 1}, kind in ("interval", "capmatch")),
            ):
                how = (
                    {"source": "a", "target": "b"}
                    if kind.endswith("path")
                    else {"upper": 1}
                    if kind == "interval"
                    else {}
                )
                if asked:
                    blossom.Instance.from_graph(EDGES, kind, **{**how, **words})
                    continue
                with self.assertRaisesRegex(
                    blossom.GraphError,
                    "%s.* appl(y|ies) only to" % next(iter(words)),
                ):
                    blossom.Instance.from_graph(EDGES, kind, **how, **words)
            self.assertEqual(blossom.Instance.from_graph([], "match").bounds, [])

    def test_the_text_names_the_bounds_of_all_nodes(self):
        of = blossom.Instance.from_graph(
            [("a", "b", 7), ("b", "c", -2, 3)],
            "interval",
            lower={"b": 1},
            upper=1,
            default_capacity=2,
        )
        self.assertEqual(of.text, b"p edge 3 2\ne 1 2 7 2\ne 2 3 -2 3\nn 1 0 1\nn 2 1 1\nn 3 0 1\n")
        self.assertEqual(
            (of.capacities, of.values, repr(of)),
            ([2, 3], [1, 1, 1], "<interval instance of 3 nodes and 2 edges>"),
        )

    def test_edges_without_a_capacity_of_a_b_matching(self):
        of = blossom.Instance.from_graph(
            [("a", "b", 1, 5), ("a", "b", 1), ("a", "b", 1, float("inf"))],
            "capmatch",
            degrees={"a": 2},
            default_capacity=3,
        )
        self.assertEqual(of.capacities, [5, 3, 3])
        self.assertEqual(
            blossom.Instance.from_graph(
                [("a", "b")], "interval", upper=9, default_capacity=5000
            ).capacities,
            [4096],
        )

    def test_attributes_of_nodes(self):
        networkx = wanted("networkx")
        graph = networkx.Graph([("a", "b"), ("b", "c")])
        networkx.set_node_attributes(graph, {"a": 1, "b": 2}, "least")
        networkx.set_node_attributes(graph, {"b": 3}, "greatest")
        of = blossom.Instance.from_graph(
            graph, "interval", lower="least", upper="greatest", default_capacity=2
        )
        self.assertEqual(of.bounds, [(1, 2), (2, 3), (0, 2)])
        with self.assertRaisesRegex(
            blossom.GraphError, "no node has the attribute 'most' named by upper="
        ):
            blossom.Instance.from_graph(graph, "interval", upper="most")

    def test_equal_instances(self):
        one = blossom.Instance.from_graph(EDGES, "interval", lower=1, upper=2)
        self.assertEqual(
            one,
            blossom.Instance.from_graph(
                EDGES, "interval", lower=dict.fromkeys("abcde", 1), upper=2
            ),
        )
        self.assertNotEqual(one, blossom.Instance.from_graph(EDGES, "interval", upper=2))
        self.assertNotEqual(
            one.checksum, blossom.Instance.from_graph(EDGES, "interval", upper=2).checksum
        )


class Calls(unittest.TestCase):
    def asked(self, call, *words, output=b"s OPTIMAL interval 0\n", **how):
        """What a call asks of the program: the kind and the text."""
        stand_in = StandIn(0, output)
        call(*words, engine=stand_in, **how)
        return stand_in.asked[0][1:3]

    def test_between_is_the_same_call(self):
        self.assertIs(blossom.degree_constrained_subgraph, blossom.degree_constrained_subgraph)
        for words, how in (
            ((1,), {"default_capacity": 1}),
            ((1, 2), {"default_capacity": 1}),
            ((), {"default_capacity": 1}),
            ((0, 2), {"default_capacity": None}),
        ):
            kind, text = self.asked(
                blossom.degree_constrained_subgraph,
                EDGES,
                *words,
                **({} if how["default_capacity"] else how)
            )
            said = dict(zip(("lower", "upper"), words), **how)
            self.assertEqual(
                (kind, text),
                ("interval", blossom.Instance.from_graph(EDGES, "interval", **said).text),
            )

    def test_without_a_limit_of_any_kind(self):
        with self.assertRaisesRegex(blossom.GraphError, "pass default_capacity=1"):
            blossom.degree_constrained_subgraph(EDGES, 1, default_capacity=None)
        with self.assertRaisesRegex(blossom.GraphError, "pass default_capacity=1"):
            blossom.solve(EDGES, "interval", lower=1)

    def test_an_instance_has_its_own_words(self):
        of = blossom.Instance.from_graph(EDGES, "interval", lower=1, upper=4, default_capacity=3)
        self.assertEqual(self.asked(blossom.degree_constrained_subgraph, of), ("interval", of.text))
        for how in ({"lower": 1}, {"upper": 2}, {"default_capacity": 2}):
            with self.assertRaisesRegex(TypeError, "%s= cannot be passed" % next(iter(how))):
                blossom.degree_constrained_subgraph(of, engine=StandIn(), **how)
        with self.assertRaisesRegex(ValueError, "expected 'oddpath', got 'interval'"):
            blossom.solve(of, "oddpath")

    def test_many_graphs_and_checks_take_the_words(self):
        graphs = [EDGES, EDGES[1:], blossom.Instance.from_graph(EDGES, "interval", upper=4)]
        stand_in = StandIn(0, b"s OPTIMAL interval 0\n")
        blossom.solve_many(
            "interval", graphs, lower=1, upper={"b": 2}, default_capacity=1, engine=stand_in
        )
        wanted_texts = [
            blossom.Instance.from_graph(
                graph, "interval", lower=1, upper={"b": 2}, default_capacity=1
            ).text
            for graph in graphs[:2]
        ]
        self.assertEqual({asked[2] for asked in stand_in.asked}, {*wanted_texts, graphs[2].text})
        stand_in = StandIn(0, b"s ACCEPTED\n")
        self.assertTrue(
            blossom.check(
                EDGES,
                "interval",
                "s OPTIMAL interval 0\n",
                lower=0,
                upper=2,
                default_capacity=1,
                engine=stand_in,
            )
        )
        text = blossom.Instance.from_graph(EDGES, "interval", upper=2, default_capacity=1).text
        self.assertEqual(stand_in.asked[0][2], text + b"s OPTIMAL interval 0\n")

    def test_parities(self):
        output = {
            "path": b"s OPTIMAL path 1\nw 1 1 1\n",
            "oddpath": b"s OPTIMAL oddpath 1\nw 1 1 1\n",
            "evenpath": b"s OPTIMAL evenpath 1\nw 1 1 1\n",
        }
        for parity, kind in ((None, "path"), ("odd", "oddpath"), ("even", "evenpath")):
            asked = self.asked(
                blossom.shortest_path, EDGES, "a", "c", parity=parity, output=output[kind]
            )
            self.assertEqual(
                asked, (kind, blossom.Instance.from_graph(EDGES, kind, source="a", target="c").text)
            )
        for parity in ("both", "Odd", 1, ""):
            with self.assertRaisesRegex(
                ValueError, "parity must be 'odd', 'even' or None, got %s" % re.escape(repr(parity))
            ):
                blossom.shortest_path(EDGES, "a", "c", parity=parity)


class Parities(unittest.TestCase):
    def test_ends_are_the_nodes_of_odd_value(self):
        for kind in ("oddpath", "evenpath"):
            of = blossom.Instance.from_graph(EDGES, kind, source="d", target="b")
            self.assertEqual(
                (of.values, of.bounds, of.capacities), ([0, 1, 0, 1, 0], [], [None] * 5)
            )
            self.assertTrue(of.text.endswith(b"e 4 5 3\nn 2 1\nn 4 1\n"))
            self.assertEqual(of._numbers.values.tolist(), [0, 1, 0, 1, 0])
            self.assertEqual(
                (
                    of._backwards,
                    blossom.Instance.from_graph(EDGES, kind, source="b", target="d")._backwards,
                ),
                (True, False),
            )

    def test_what_is_refused(self):
        for kind in ("oddpath", "evenpath"):
            for words, said in (
                ({}, "needs source= and target="),
                ({"source": "a"}, "missing target="),
                ({"source": "a", "target": "a"}, "two different nodes"),
                ({"source": "a", "target": "z"}, "node 'z' isn't in the graph"),
                ({"degrees": {"a": 1}}, "needs source= and target="),
                (
                    {"terminals": ["a", "b"]},
                    "terminals= applies only to kind 'tjoin', got kind '%s'" % kind,
                ),
            ):
                with self.subTest(kind=kind, words=words), self.assertRaisesRegex(
                    blossom.GraphError, said
                ):
                    blossom.Instance.from_graph(EDGES, kind, **words)

    def test_no_weight_is_below_0(self):
        edges = [("a", "b", 3), ("b", "c", -1), ("c", "a", -2)]
        for kind, said in (
            (
                "oddpath",
                "edge ('c', 'a') has negative weight -2: kind 'oddpath' requires nonnegative weights",
            ),
            ("evenpath", "kind 'evenpath' requires nonnegative weights"),
            ("postman", "kind 'postman' requires nonnegative weights"),
        ):
            words = {} if kind == "postman" else {"source": "a", "target": "c"}
            with self.assertRaises(blossom.WeightError) as told:
                blossom.Instance.from_graph(edges, kind, **words)
            self.assertIn(said, str(told.exception))
        self.assertEqual(
            blossom.Instance.from_graph(edges, "path", source="a", target="c").weights, [3, -1, -2]
        )

    def test_a_path_from_the_later_node_goes_the_way_that_is_asked(self):
        edges = [("a", "b", 1), ("b", "c", 2), ("c", "d", 4)]
        answer = blossom.shortest_path(
            edges, "d", "a", parity="odd", engine=StandIn(0, b"s OPTIMAL oddpath 7\nw 1 3 1 2 3\n")
        )
        self.assertEqual(
            (answer.node_walk, answer.edge_walk),
            (["d", "c", "b", "a"], [("d", "c"), ("c", "b"), ("b", "a")]),
        )
        self.assertEqual(
            (answer.edge_walk_indices, answer.edge_indices, answer.edge_counts, answer.mate),
            ([2, 1, 0], [0, 1, 2], [1, 1, 1], {}),
        )
        self.assertEqual(
            [(row["step"], row["u"], row["v"], row["weight"]) for row in answer.rows],
            [(1, "d", "c", 4), (2, "c", "b", 2), (3, "b", "a", 1)],
        )
        self.assertEqual(repr(answer), "<oddpath answer of weight 7: 3 steps>")


class Answers(unittest.TestCase):
    def answer(self):
        """Edges that are used more than once, and a loop."""
        edges = [("a", "b", 1), ("b", "b", 0.5), ("b", "c", 2)]
        text = b"s OPTIMAL interval 9\nx 1 2\nx 2 1\nx 3 1\n"
        return blossom.degree_constrained_subgraph(
            edges, 1, {"a": 3, "b": 5, "c": 2}, default_capacity=2, scale=2, engine=StandIn(0, text)
        )

    def test_uses_and_rows(self):
        answer = self.answer()
        self.assertEqual(
            (answer.multiplicities, answer.edge_counts, answer.edge_indices),
            ({("a", "b"): 2, ("b", "b"): 1, ("b", "c"): 1}, [2, 1, 1], [0, 1, 2]),
        )
        self.assertEqual(
            (float(answer.weight), answer.mate, answer.node_walk, answer.edge_walk),
            (4.5, {}, [], []),
        )
        self.assertEqual(
            [(row["u"], row["v"], row["count"]) for row in answer.rows],
            [("a", "b", 2), ("b", "b", 1), ("b", "c", 1)],
        )
        self.assertEqual(repr(answer), "<interval answer of weight 4.5: 3 edges>")
        self.assertEqual(fitted(answer.instance, answer.certificate.text).edge_counts, [2, 1, 1])

    def test_a_graph_of_the_used_edges(self):
        wanted("networkx")
        graph = self.answer().to_networkx()
        self.assertEqual(
            (graph.number_of_edges("a", "b"), graph.number_of_edges("b", "b"), dict(graph.degree)),
            (2, 1, {"a": 2, "b": 5, "c": 1}),
        )

    def test_names_of_halves_and_sides_belong_to_nodes(self):
        of = self.answer().instance
        self.assertEqual({node_of(name) for name in vertex_names(of)}, {"a", "b", "c"})
        gates = [name for name in vertex_names(of) if is_subdivision(name)]
        self.assertEqual((len(vertex_names(of)), len(gates)), (2 * (10 + 12), 24))
        self.assertEqual(
            node_of(blossom.vertices.Mirror(blossom.vertices.Subdivision(("a", "b"), 1, "b"), 1)),
            "b",
        )
        self.assertEqual(node_of(blossom.vertices.Layer(("x", 1), 0)), ("x", 1))
        self.assertFalse(
            is_subdivision(blossom.vertices.Layer("a", 0))
            or is_subdivision(blossom.vertices.Mirror(blossom.vertices.Copy("a", 0), 0))
        )


if __name__ == "__main__":
    unittest.main()
