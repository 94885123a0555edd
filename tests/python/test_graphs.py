"""The forms in which graphs can be given, and the texts that they become."""
import collections
import functools
import unittest

import blossom
from blossom.graphs import table_of
from support import wanted


def text(graph, kind="perfect", **how):
    return blossom.Instance.from_graph(graph, kind, **how).text.decode()


class Forms(unittest.TestCase):
    def test_edges_have_two_to_four_entries(self):
        self.assertEqual(
            text([("a", "b"), ("b", "c", 7), ("a", "c", 5, 2)], "capmatch"),
            "p edge 3 3\ne 1 2 1\ne 2 3 7\ne 1 3 5 2\n",
        )
        self.assertEqual(
            text([("a", "b", {"weight": 4, "cost": 9})], weight="cost"), "p edge 2 1\ne 1 2 9\n"
        )
        for edge in (("a",), ("a", "b", 1, 1, 1)):
            with self.assertRaisesRegex(blossom.GraphError, "invalid edge"):
                text([edge])

    def test_columns_that_nobody_gave(self):
        for graph, count in (([], 0), ({"u": [], "v": []}, 0), ([("a", "b"), ("b", "c")], 2)):
            table = table_of(graph)
            self.assertEqual((table.weights, table.capacities), ([1] * count, [None] * count))
            self.assertEqual(table.edge_count, count)

    def test_no_weights_are_all_1(self):
        self.assertEqual(text([("a", "b", 8)], weight=None), "p edge 2 1\ne 1 2 1\n")

    def test_nodes_without_edges_come_first_where_they_are_named(self):
        self.assertEqual(
            blossom.Instance.from_graph([(1, 2)], "match", nodes=[3, 2]).nodes, [3, 2, 1]
        )

    def test_nodes_are_whatever_can_be_hashed(self):
        nodes = [(0, "a"), frozenset({1}), "", 2.5, "x"]
        of = blossom.Instance.from_graph(
            [(nodes[0], nodes[1]), (nodes[2], nodes[3])], "perfect", nodes=nodes
        )
        self.assertEqual(of.nodes, nodes)

    def test_columns_have_names(self):
        wanted_text = "p edge 3 2\ne 1 2 4\ne 2 3 5\n"
        for ends in (("u", "v"), ("source", "target"), ("from", "to")):
            self.assertEqual(
                text(
                    {ends[0]: ["a", "b"], ends[1]: ["b", "c"], "weight": [4, 5], "colour": [0, 0]}
                ),
                wanted_text,
            )
        with self.assertRaisesRegex(blossom.GraphError, "equal lengths"):
            text({"u": [1, 2], "v": [3]})
        with self.assertRaisesRegex(blossom.GraphError, "no columns for the edge ends"):
            text({"a": [1], "b": [2]})

    def test_columns_of_numpy(self):
        numpy = wanted("numpy")
        u, v, weight = numpy.array([0, 1]), numpy.array([1, 2]), numpy.array([4.0, 5.0])
        for graph in (
            {"u": u, "v": v, "weight": weight},
            (u, v, weight),
            numpy.array([[0, 1, 4], [1, 2, 5]]),
        ):
            of = blossom.Instance.from_graph(graph, "perfect")
            self.assertEqual(
                (of.text, of.nodes, {type(node) for node in of.nodes}),
                (b"p edge 3 2\ne 1 2 4\ne 2 3 5\n", [0, 1, 2], {int}),
            )
        rows = numpy.array(
            [(0, 1, 4), (1, 2, 5)], dtype=[("u", int), ("v", int), ("weight", float)]
        )
        self.assertEqual(text(rows), "p edge 3 2\ne 1 2 4\ne 2 3 5\n")
        self.assertEqual(text([(0, 1, numpy.float32(0.5))], scale=2), "p edge 2 1\ne 1 2 1\n")

    def test_graphs_of_networkx(self):
        networkx = wanted("networkx")
        graph = networkx.Graph()
        graph.add_node("alone", need=0)
        graph.add_edge("a", "b", weight=3, cost=8)
        graph.nodes["a"]["need"] = 2
        self.assertEqual(text(graph), "p edge 3 1\ne 2 3 3\n")
        self.assertEqual(text(graph, weight="cost"), "p edge 3 1\ne 2 3 8\n")
        self.assertEqual(
            text(graph, "bmatch", degrees="need"), "p edge 3 1\ne 2 3 3\nn 1 0\nn 2 2\n"
        )
        with self.assertRaisesRegex(blossom.GraphError, "to_undirected"):
            text(networkx.DiGraph([(1, 2)]))

    def test_edges_of_networkx_come_in_its_order(self):
        networkx = wanted("networkx")
        graph = networkx.gnp_random_graph(40, 0.3, seed=3)
        for one in (graph, graph.subgraph(range(5, 30)), networkx.MultiGraph(graph)):
            self.assertEqual(table_of(one).ends, [edge[:2] for edge in one.edges])
            self.assertEqual(table_of(one).names, list(one.edges))

    def test_attributes_of_networkx(self):
        networkx = wanted("networkx")
        rows = [("a", "b", {"weight": 4, "way": "x"}), ("b", "c", {"limit": 2}), ("a", "a", {}),
                ("c", "a", {"weight": 5, "limit": 0})]
        for make in (networkx.Graph, networkx.MultiGraph):
            graph = make()
            graph.add_edges_from(rows)
            of = blossom.Instance.from_graph(graph, "capmatch", capacity="limit")
            given = {frozenset(row[:2]): row[2] for row in rows}
            own = [given[frozenset(ends)] for ends in of.ends]
            self.assertEqual(of.weights, [one.get("weight", 1) for one in own])
            self.assertEqual(of.capacities, [one.get("limit") for one in own])
            self.assertEqual(of.columns, {"way": [one.get("way") for one in own]})
            with self.assertRaisesRegex(
                blossom.GraphError, r"edge \('a', 'a'.*\) has no 'weight', which"
            ):
                blossom.Instance.from_graph(graph, "match", weight="weight")
            self.assertEqual(
                blossom.Instance.from_graph(graph, "match", weight=None).weights, [1] * 4
            )

    def test_no_edge_lacks_what_is_named(self):
        networkx = wanted("networkx")
        for graph in (networkx.Graph(), networkx.MultiGraph()):
            graph.add_node("a")
            of = blossom.Instance.from_graph(graph, "capmatch", weight="cost", capacity="limit")
            self.assertEqual((of.nodes, of.edges, of.capacities), (["a"], [], []))
            graph.add_edge("a", "b")
            with self.assertRaisesRegex(blossom.GraphError, "no edge has 'limit'"):
                blossom.Instance.from_graph(graph, "capmatch", capacity="limit")

    def test_a_graph_that_adds_what_is_looked_up_stays_as_it_is(self):
        networkx = wanted("networkx")

        class Adds(networkx.Graph):
            edge_attr_dict_factory = functools.partial(collections.defaultdict, int)

        graph = Adds([("a", "b"), ("b", "c", {"weight": 7})])
        of = blossom.Instance.from_graph(graph, "match")
        self.assertEqual((of.weights, of.edges), ([1, 7], [("a", "b"), ("b", "c")]))
        self.assertEqual([dict(one) for *_, one in graph.edges(data=True)], [{}, {"weight": 7}])

    def test_missing_nodes_of_networkx(self):
        networkx = wanted("networkx")
        graph = networkx.Graph([(1, float("nan"))])
        with self.assertRaisesRegex(blossom.GraphError, "missing edge end"):
            blossom.Instance.from_graph(graph, "match")

    def test_loops_of_networkx(self):
        networkx = wanted("networkx")
        graph = networkx.Graph([("a", "a", {"weight": 5}), ("a", "b", {"weight": 2})])
        self.assertEqual(text(graph), "p edge 2 2\ne 1 1 5\ne 1 2 2\n")
        graph = networkx.MultiGraph(graph)
        graph.add_edge("b", "b", key="again", weight=4)
        self.assertEqual(table_of(graph).names, [("a", "a", 0), ("a", "b", 0), ("b", "b", "again")])
        self.assertEqual(text(graph), "p edge 2 3\ne 1 1 5\ne 1 2 2\ne 2 2 4\n")

    def test_multigraphs_keep_their_keys(self):
        networkx = wanted("networkx")
        graph = networkx.MultiGraph()
        graph.add_edge("a", "b", key="old", weight=5)
        graph.add_edge("a", "b", key="new", weight=2)
        self.assertEqual(blossom.min_weight_perfect_matching(graph).edges, [("a", "b", "new")])


class Names(unittest.TestCase):
    def test_edges_are_named_by_their_ends(self):
        self.assertEqual(table_of([("a", "b"), ("c", "b")]).names, [("a", "b"), ("c", "b")])

    def test_parallel_edges_are_counted(self):
        self.assertEqual(
            table_of([("a", "b"), ("b", "c"), ("b", "a")]).names,
            [("a", "b", 0), ("b", "c", 0), ("b", "a", 1)],
        )

    def test_loops_are_edges_as_others(self):
        for edges, names in (
            ([("a", "a"), ("a", "b")], [("a", "a"), ("a", "b")]),
            ([("a", "a"), ("a", "b"), ("a", "a")], [("a", "a", 0), ("a", "b", 0), ("a", "a", 1)]),
        ):
            for form in (
                edges,
                {"u": [edge[0] for edge in edges], "v": [edge[1] for edge in edges]},
            ):
                table = table_of(form)
                self.assertEqual((table.names, table.names_of([1])), (names, names[1:2]))


class Refusals(unittest.TestCase):
    def test_what_is_too_large(self):
        with self.assertRaises(blossom.LimitExceeded) as told:
            text([(0, 1)], nodes=range(4097))
        self.assertEqual((told.exception.vertices, told.exception.edges), (4097, 1))
        with self.assertRaises(blossom.LimitExceeded):
            text([(0, 1)], "bmatch", degrees={0: 4097})
        self.assertEqual(len(blossom.Instance.from_graph([(0, 1)] * 65536, "perfect").edges), 65536)
        with self.assertRaises(blossom.LimitExceeded):
            text([(0, 1)] * 65537)

    def test_values_that_are_none(self):
        for value in (-1, 0.5, float("nan"), "two", None):
            with self.assertRaises(blossom.GraphError):
                text([("a", "b")], "bmatch", degrees={"a": value})
        with self.assertRaisesRegex(blossom.GraphError, "isn't in the graph"):
            text([("a", "b")], "tjoin", terminals=["a", "c"])

    def test_words_of_another_kind(self):
        for kind, how in (
            ("perfect", {"terminals": ["a"]}),
            ("tjoin", {"source": "a", "target": "b"}),
            ("path", {"source": "a"}),
            ("match", {"degrees": {"a": 1}}),
            ("path", {"source": "a", "target": "a"}),
            ("path", {}),
        ):
            with self.assertRaises(blossom.GraphError):
                text([("a", "b")], kind, **how)
        with self.assertRaisesRegex(ValueError, "unknown kind"):
            text([("a", "b")], "matching")

    def test_capacities(self):
        self.assertEqual(
            text([(1, 2, 1, 10**9), (1, 2, 1, float("inf")), (1, 2, 1, None)], "capmatch"),
            "p edge 2 3\ne 1 2 1 4096\ne 1 2 1\ne 1 2 1\n",
        )
        with self.assertRaises(blossom.GraphError):
            text([(1, 2, 1, -1)], "capmatch")
        self.assertEqual(text([(1, 2, 1, -1)], "bmatch"), "p edge 2 1\ne 1 2 1\n")  # not asked for
