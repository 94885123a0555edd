"""Which columns are weights and capacities, and what becomes of the others; and what is no
graph."""
import io
import os
import tempfile
import unittest

import blossom
from blossom.graphs import table_of
from support import StandIn, wanted

TEXT = "u,v,length,name,weight\na,b,2,Mill Lane,7\nb,c,3,High Street,8\n"
UNWEIGHTED = "u,v,length,name\na,b,2,Mill Lane\nb,c,3,High Street\n"
LISTS = {"u": ["a", "b"], "v": ["b", "c"], "length": [2, 3], "name": ["Mill Lane", "High Street"]}
ATTRIBUTES = [("a", "b", {"length": 2, "name": "Mill Lane"}), ("b", "c", {"length": 3})]


def read(text, format="csv", **how):
    return blossom.read(io.StringIO(text), format, **how)


def weights(graph, **how):
    return blossom.Instance.from_graph(graph, "match", **how).weights


def graph_of_networkx():
    networkx = wanted("networkx")
    graph = networkx.Graph()
    graph.add_edges_from(ATTRIBUTES)
    return graph


def frame():
    return wanted("pandas").DataFrame(LISTS)


FORMS = (
    ("a table", lambda: read(UNWEIGHTED)),
    ("lists", lambda: LISTS),
    ("attributes", lambda: ATTRIBUTES),
)
INSTALLED = (("networkx", graph_of_networkx), ("pandas", frame))


class Weights(unittest.TestCase):
    def each_form(self, forms, call):
        for name, make in forms:
            with self.subTest(name):
                call(make())

    def named(self, graph):
        self.assertEqual(weights(graph, weight="length"), [2, 3])
        self.assertEqual(weights(graph, weight=None), [1, 1])
        self.assertEqual(
            blossom.max_weight_matching(
                graph, weight="length", engine=StandIn(0, b"s OPTIMAL match 3\nx 2 1\n")
            ).weight,
            3,
        )
        for word in ("weight", "lenght"):
            with self.assertRaisesRegex(
                blossom.GraphError,
                "no edge has '%s', which weight='%s' names: the columns are .*length"
                % (word, word),
            ):
                weights(graph, weight=word)
        with self.assertRaisesRegex(blossom.GraphError, "no edge has 'limit'"):
            weights(graph, weight="length", capacity="limit")

    def like_one(self, graph):
        with self.assertRaisesRegex(
            blossom.GraphError,
            "no 'weight', but 'length' may be: pass weight='length', or weight=None to count",
        ):
            weights(graph)

    def test_a_weight_that_is_named_is_there(self):
        self.each_form(FORMS, self.named)

    def test_nor_of_other_packages(self):
        for form in INSTALLED:
            with self.subTest(form[0]):
                self.named(form[1]())
                self.like_one(form[1]())

    def test_a_column_called_like_a_weight_is_named(self):
        self.each_form(FORMS, self.like_one)
        for name in ("distance", "cost", "Length (m)", "travel_cost"):
            lists = {"u": ["a"], "v": ["b"], name: ["5 m"]}
            with self.subTest(name), self.assertRaisesRegex(
                blossom.GraphError, "no 'weight', but '.*' may be: pass weight='"
            ):
                weights(lists)
        for name in ("name", "width", "lengthy", "color"):
            lists = {"u": ["a"], "v": ["b"], name: ["5 m"]}
            with self.subTest(name):
                self.assertEqual(weights(lists), [1])
        self.assertEqual(weights({**LISTS, "weight": [8, 9]}), [8, 9])

    def test_an_edge_without_the_weight_that_is_named(self):
        edges = [("a", "b", {"length": 2}), ("b", "c", {})]
        with self.assertRaisesRegex(blossom.GraphError, r"edge \('b', 'c'\) has no 'length'"):
            weights(edges, weight="length")
        self.assertEqual(weights([("a", "b", {"weight": 2}), ("b", "c", {})]), [2, 1])
        with self.assertRaisesRegex(
            blossom.GraphError, "weight='length' names an attribute, but the edges are tuples"
        ):
            weights([("a", "b"), ("b", "c", 4)], weight="length")
        self.assertEqual(weights([("a", "b", 7), ("b", "c", 4)], weight="weight"), [7, 4])
        self.assertEqual(weights([("a", "b", 7), ("b", "c")]), [7, 1])
        self.assertEqual(weights([("a", "b", 7), ("b", "c")], weight=None), [1, 1])

    def test_capacities_that_are_named(self):
        rows = [("a", "b", {"limit": 2}), ("b", "c", {})]
        of = blossom.Instance.from_graph(rows, "capmatch", capacity="limit")
        self.assertEqual(of.capacities, [2, None])
        for graph in (rows, LISTS, read(TEXT)):
            with self.assertRaisesRegex(
                blossom.GraphError,
                "no edge has 'limits', which capacity='limits' names",
            ):
                blossom.Instance.from_graph(graph, "capmatch", weight=None, capacity="limits")


class Files(unittest.TestCase):
    def test_other_columns_of_a_table_serve_as_weights(self):
        table = read(TEXT)
        self.assertEqual(
            (table.weights, table.columns),
            ([7, 8], {"length": ["2", "3"], "name": ["Mill Lane", "High Street"]}),
        )
        self.assertEqual(weights(table), [7, 8])
        chosen = table_of(table, weight="length")
        self.assertEqual(
            (chosen.weights, chosen.columns["weight"], chosen.weight_name),
            ([2, 3], [7, 8], "length"),
        )
        self.assertNotIn("length", chosen.columns)
        self.assertEqual(table_of(chosen).weights, [2, 3])
        with self.assertRaisesRegex(
            blossom.GraphError, "name of an edge must be a number, got 'Mill Lane'"
        ):
            weights(table, weight="name")

    def test_columns_that_are_named_are_there(self):
        self.assertEqual(read(TEXT, weight="length").weights, [2, 3])
        self.assertEqual(read(TEXT, weight=None).weights, [1, 1])
        for how, said in (
            (
                {"weight": "metres"},
                "no edge has 'metres', .* the columns are 'length', 'name', 'weight'",
            ),
            ({"capacity": "limit"}, "no edge has 'limit'"),
        ):
            with self.assertRaisesRegex(blossom.GraphError, said):
                read(TEXT, **how)
        self.assertEqual(read("a b 4\nb c 5\n", "edges", weight="length").weights, [4, 5])
        self.assertEqual(read("p edge 2 1\ne 1 2 4\n", "dimacs", weight=None).weights, [1])

    def test_a_blank_is_no_weight(self):
        for text in ("u,v,weight\na,b,4\nb,c,\n", "u,v,weight\na,b,4\nb,c\n"):
            with self.assertRaisesRegex(
                blossom.GraphError, r"line 3: weight of edge \('b', 'c'\) is empty"
            ):
                read(text)

    def test_a_name_that_stands_twice(self):
        with self.assertRaisesRegex(blossom.GraphError, "duplicate column name 'weight'"):
            read("u,v,weight,weight\na,b,1,2\n")

    def test_graphml(self):
        head = '<graphml><key id="d" for="edge" attr.name="length"/><graph>'
        edge = '<edge source="%s" target="%s">%s</edge>'
        both = head + edge % ("a", "b", '<data key="d">2</data>') + "%s</graph></graphml>"
        one, two = both % "", both % (edge % ("b", "c", ""))
        self.assertEqual(read(one, "graphml", weight="length").weights, [2])
        self.assertEqual(read(two, "graphml", weight=None).weights, [1, 1])
        self.assertEqual(read(one, "graphml").columns, {"length": ["2"]})
        for text, how, said in (
            (two, {"weight": "length"}, "length of edge .* is empty"),
            (one, {"weight": "weight"}, "no edge has 'weight'"),
            (one, {"capacity": "limit"}, "no edge has 'limit'"),
        ):
            with self.assertRaisesRegex(blossom.GraphError, said):
                read(text, "graphml", **how)
        with self.assertRaisesRegex(blossom.GraphError, "'length' may be: pass weight="):
            weights(read(one, "graphml"))


class Others(unittest.TestCase):
    def rows(self, graph, kind, text, **how):
        return blossom.solve(graph, kind, engine=StandIn(0, text), **how).rows

    def test_columns_come_back_with_steps(self):
        found = self.rows(read(TEXT), "postman", b"s OPTIMAL postman 30\nw 1 4 1 2 2 1\n")
        self.assertEqual(
            found[0],
            {"step": 1, "u": "a", "v": "b", "weight": 7, "length": "2", "name": "Mill Lane"},
        )
        self.assertEqual(
            [row["name"] for row in found], ["Mill Lane", "High Street", "High Street", "Mill Lane"]
        )
        self.assertEqual([row["u"] for row in found], list("abcb"))

    def test_and_with_uses(self):
        wanted_row = {"u": "b", "v": "c", "weight": 3, "count": 1, "name": "High Street"}
        for form in (LISTS, read(UNWEIGHTED)):
            found = self.rows(form, "match", b"s OPTIMAL match 3\nx 2 1\n", weight="length")
            self.assertEqual(found, [wanted_row])
        found = self.rows(ATTRIBUTES, "match", b"s OPTIMAL match 2\nx 1 1\n", weight="length")
        self.assertEqual(
            found, [{"u": "a", "v": "b", "weight": 2, "count": 1, "name": "Mill Lane"}]
        )

    def test_keys_and_names_that_are_taken(self):
        lists = {"u": ["a", "a"], "v": ["b", "b"], "weight": [1, 2], "count": [8, 9]}
        self.assertEqual(
            self.rows(lists, "bmatch", b"s OPTIMAL bmatch 4\nx 2 2\n"),
            [{"u": "a", "v": "b", "key": 1, "weight": 2, "count": 2, "given_count": 9}],
        )

    def test_attributes_of_networkx(self):
        found = self.rows(
            graph_of_networkx(), "match", b"s OPTIMAL match 2\nx 1 1\n", weight="length"
        )
        self.assertEqual(found[0]["name"], "Mill Lane")


class NoGraphs(unittest.TestCase):
    def test_what_is_no_graph_is_told_what_to_write(self):
        symmetric = [[0, 1, 2], [1, 0, 3], [2, 3, 0]]
        for graph, said in (
            (5, "expected a graph, got 5"),
            (2.5, "expected a graph, got 2.5"),
            ("streets.csv", r"use blossom.read\('streets.csv'\) to"),
            (b"a b", "got bytes: use blossom.read"),
            (io.StringIO("u,v\na,b\n"), "expected a graph, got StringIO: use blossom.read"),
            (symmetric, "a 3 × 3 matrix: .*from_numpy_array"),
            ([[0] * 6] * 6, "a 6 × 6 matrix: .*, or edges as tuples"),
            (["ab", "bc"], "invalid edge 'ab'"),
            ([1, 2], "invalid edge 1"),
            ([("a", "b"), ("b",)], r"invalid edge \('b',\)"),
            ([("a", "b", 1, 2, 3)], r"invalid edge \('a', 'b', 1, 2, 3\)"),
        ):
            with self.subTest(graph=graph), self.assertRaisesRegex(blossom.GraphError, said):
                blossom.min_weight_perfect_matching(graph)
        with self.assertRaisesRegex(blossom.GraphError, "expected a graph, got None: pass a"):
            blossom.chinese_postman(None)
        with self.assertRaisesRegex(TypeError, "one of a graph, costs= and points=: got none"):
            blossom.min_weight_perfect_matching(None)

    def test_lists_that_only_look_like_a_matrix(self):
        for rows in (
            [[0, 1, 2], [1, 2, 3], [2, 3, 4]],
            [(0, 1, 2), (1, 0, 3), (2, 3, 0)],
            [[0, 1], [1, 2]],
        ):
            self.assertEqual(len(blossom.Instance.from_graph(rows, "match").edges), len(rows))

    def test_matrices_of_numpy_and_scipy(self):
        numpy = wanted("numpy")
        with self.assertRaisesRegex(blossom.GraphError, "a 5 × 5 matrix"):
            blossom.min_weight_perfect_matching(numpy.zeros((5, 5)))
        sparse = wanted("scipy.sparse")
        with self.assertRaisesRegex(blossom.GraphError, r"triu\(matrix\).tocoo"):
            blossom.min_weight_perfect_matching(sparse.eye(3))

    def test_files_that_are_no_texts(self):
        with tempfile.TemporaryDirectory() as room:
            for name, content, said in (
                (
                    "a.csv",
                    b"u,v\n\xff\xfe,b\n",
                    "a.csv is not UTF-8 .byte 0xff in line 2.: save it",
                ),
                ("b.csv", b"u,v\na\0,b\n", "is not text: supported formats are csv"),
                ("c.edges", b"\x89PNG\r\n\x1a\n\0", "c.edges is not text"),
                ("d.graphml", b"\x1f\x8b\x08\0", "d.graphml is not text"),
            ):
                path = os.path.join(room, name)
                with open(path, "wb") as file:
                    file.write(content)
                with self.assertRaisesRegex(blossom.GraphError, said):
                    blossom.read(path)
            with open(path, "rb") as file, self.assertRaisesRegex(
                blossom.GraphError, "binary mode"
            ):
                blossom.read(file, "csv")
        for thing in (None, 5, ["a.csv"]):
            with self.assertRaisesRegex(blossom.GraphError, "expected a path or an open text file"):
                blossom.read(thing)

    def test_what_is_no_answer(self):
        for thing in (None, 5, [("a", "b")]):
            with self.assertRaisesRegex(TypeError, "cannot check a .*: expected an Answer"):
                blossom.check([("a", "b")], "perfect", thing)
        for thing in ("tour.txt", None, [("a", "b")]):
            with self.assertRaisesRegex(TypeError, "cannot draw a .*: expected an Answer"):
                blossom.draw(thing)
