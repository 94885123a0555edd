"""Graphs whose edges are arrays of numpy: what is made of them is what lists of the same become."""
import random
import unittest

import blossom
from blossom.column_tables import are_ends
from blossom.graphs import table_of
from support import wanted


def edges(chance, nodes, count):
    """So many edges by chance, of which some are parallel, turned or loops."""
    pairs = [
        chance.sample(nodes, 2) if chance.randrange(8) else [chance.choice(nodes)] * 2
        for _ in range(count)
    ]
    return [(*pair, chance.randint(-9, 9)) for pair in pairs]


class Same(unittest.TestCase):
    def setUp(self):
        self.numpy = wanted("numpy")

    def columns(self, rows, ends="int64", weights="int64"):
        first, second, weight = zip(*rows)
        return (
            self.numpy.array(first, ends),
            self.numpy.array(second, ends),
            self.numpy.array(weight, weights),
        )

    def same(self, graph, rows, kind="match", **words):
        """The instance of the arrays is that of the rows, in all that it says of itself."""
        one, other = blossom.Instance.from_graph(graph, kind, **words), blossom.Instance.from_graph(
            rows, kind, **words
        )
        self.assertEqual(one, other)
        for name in (
            "nodes",
            "edges",
            "ends",
            "weights",
            "capacities",
            "values",
            "bounds",
            "text",
            "checksum",
            "edge_count",
            "scale",
        ):
            self.assertEqual(getattr(one, name), getattr(other, name), name)
        self.assertEqual({type(node) for node in one.nodes}, {int})
        self.assertEqual({type(weight) for weight in one.weights}, {int})

    def test_made_graphs(self):
        chance = random.Random(5)
        for nodes in (
            range(2),
            range(5),
            range(-3, 40),
            range(10**6, 10**6 + 30),
            [-(2**63), -1, 0, 2**40, 2**63 - 1],
            [7, 10**12, -(10**12)],
        ):
            for count in (1, 2, 9, 60):
                rows = edges(chance, list(nodes), count)
                self.assertTrue(are_ends(*self.columns(rows)[:2]))
                self.same(self.columns(rows), rows)

    def test_nodes_that_only_late_edges_name(self):
        chance = random.Random(9)
        for nodes, near in ((30, 5), (30, 29), (40, 12)):
            rows = edges(chance, range(near), 4 * nodes) + edges(chance, range(nodes), 9 * nodes)
            rows += [(nodes, nodes - 1, 4), (nodes + 3, nodes + 1, 5), (1, nodes + 2, 6)]
            for least in (0, 7, -3, 10**9, -(2**62)):
                moved = [(least + u, least + v, w) for u, v, w in rows]
                self.same(self.columns(moved), moved)
                self.same(self.columns(moved[::-1]), moved[::-1])

    def test_numbers_up_to_a_limit_are_places(self):
        for far in (15, 16, 17, 2**63 - 1):
            rows = [(far, 3, 1), (1, far, 2)]
            self.same(self.columns(rows), rows)
            self.same(self.columns(rows, "uint32" if far < 99 else "int64"), rows)
        rows = [(-1, 2, 1), (2, -8, 2)]
        self.same(self.columns(rows), rows)

    def test_columns_that_are_no_part_of_one_another(self):
        rows = edges(random.Random(10), range(9), 20)
        whole = self.numpy.array(rows)
        self.same((whole[:, 0], whole[:, 1], whole[:, 2]), rows)
        self.same(whole, rows)
        frame = self.numpy.array([row[:2] for row in rows], "uint16")
        self.same((frame[:, 0], frame[:, 1]), [row[:2] for row in rows])

    def test_entries_that_are_masked_are_missing(self):
        masked = self.numpy.ma.array
        ends, weights = self.numpy.array([1, 2, 3]), masked([4, 5, 6], mask=[0, 0, 1])
        for hidden in (masked([2, 3, 4], mask=[0, 1, 0]), masked([2, 3, 4], "u4", mask=[0, 1, 0])):
            for graph in ((ends, hidden), {"u": ends, "v": hidden}, (hidden, ends, ends)):
                with self.assertRaisesRegex(blossom.GraphError, "missing edge end in row 1"):
                    blossom.Instance.from_graph(graph, "match")
        for column in (weights, weights.astype("float32"), weights.astype("float64")):
            with self.assertRaisesRegex(blossom.WeightError, r"\(3, 4\) must be a finite.* None"):
                blossom.Instance.from_graph((ends, ends + 1, column), "match")
        of = blossom.Instance.from_graph((ends, ends + 1, ends, weights), "capmatch")
        self.assertEqual(of.capacities, [4, 5, None])
        shown = masked([1, 2, 3], mask=False)
        self.same((shown, shown + 1, shown), [(1, 2, 1), (2, 3, 2), (3, 4, 3)])

    def test_names_of_single_edges(self):
        chance = random.Random(8)
        for nodes, count in ((range(3), 2), (range(12), 30), (range(300), 60), (range(300), 5000)):
            rows = edges(chance, nodes, count)
            for some in (rows, list({frozenset(row[:2]): row for row in rows}.values())):
                one, other = table_of(self.columns(some)), table_of(some)
                self.assertEqual([one.name(place) for place in range(len(some))], other.names)

    def test_edges_that_are_turned_are_parallel(self):
        for far in (3, 10**12):
            for more in ([], [(place, place + 1, 0) for place in range(5, 400)]):
                rows = [(1, 2, 4), (2, 1, 5), (2, far, 6), *more]
                for table in (table_of(self.columns(rows)), table_of(rows)):
                    self.assertEqual(table.names_of([0, 1, 2]), [(1, 2, 0), (2, 1, 1), (2, far, 0)])
                    self.assertEqual(table.names[:3], table.names_of([0, 1, 2]))

    def test_callers_may_change_their_columns_afterwards(self):
        pandas = wanted("pandas")
        rows = [(1, 2, 4), (2, 3, 5), (3, 4, 6)]
        columns = self.columns(rows)
        lists = {"u": [1, 2, 3], "v": [2, 3, 4], "weight": [4, 5, 6], "way": ["a", "b", "c"]}
        frame = pandas.DataFrame(lists)
        for graph, parts in (
            (columns, columns),
            (lists, list(lists.values())),
            (frame, [frame.loc]),
        ):
            answer = blossom.max_weight_matching(graph)
            for part in parts:
                part[0] = part[2]
            self.assertEqual(
                (answer.edges, answer.instance.ends, answer.weight),
                ([(1, 2), (3, 4)], [(1, 2), (2, 3), (3, 4)], 10),
            )
            self.assertIn(answer.rows[0].get("way"), (None, "a"))
            self.assertEqual(answer.instance.weights, [4, 5, 6])

    def test_types_of_numbers(self):
        rows = edges(random.Random(6), range(20), 30)
        for ends in ("int8", "uint8", "int16", "uint32", "int64", ">i4"):
            for weights in ("int8", "int32", "float64", "float32", ">f8"):
                self.same(self.columns(rows, ends, weights), rows)

    def test_numbers_that_span_more_than_half_of_their_type(self):
        rows = [(node, node + 1, 3) for node in range(-120, 125)]
        for ends in ("int8", "int16"):
            self.same(self.columns(rows, ends), rows)
            self.same(self.columns(rows[::-1], ends), rows[::-1])

    def test_columns_and_rows_of_every_form(self):
        rows = edges(random.Random(7), range(9), 20)
        first, second, weight = self.columns(rows)
        self.same({"u": first, "v": second, "weight": weight}, rows)
        self.same((first[::-1][::-1], second, weight), rows)
        bare = [row[:2] for row in rows]
        self.same((first, second), bare)
        self.same({"from": first, "to": second, "weight": weight}, rows, nodes=[100, 3])
        self.same((first, second, weight), rows, "tjoin", terminals=rows[0][:2])
        self.same((first, second, weight), rows, "interval", lower={3: 1}, default_capacity=2)
        self.same((first, second, weight), rows, "interval", lower=1, upper=30, nodes=[100])
        self.same(
            (first, second, abs(weight)),
            [(u, v, abs(w)) for u, v, w in rows],
            "oddpath",
            source=rows[1][0],
            target=next(v for _, v, _ in rows if v != rows[1][0]),
        )
        capped = [(*row, place % 3) for place, row in enumerate(rows)]
        self.same((first, second, weight, self.numpy.arange(20) % 3), capped, "interval", lower=1)
        self.same(
            (first, second, weight, self.numpy.arange(20) % 3), capped, "capmatch", degrees={3: 2}
        )

    def test_scales_and_what_is_not_whole(self):
        rows = [(1, 2, 0.5), (2, 3, 1.25), (3, 1, -2.0)]
        graph = self.columns(rows, weights="float64")
        self.same(graph, rows, scale=4)
        self.same(graph, rows, scale="finest")
        self.same(graph, rows, rounding="nearest")
        for bad, said in (
            (0.5, "must be an integer, got 0.5"),
            (float("nan"), "must be a finite number"),
            (float("inf"), "must be a finite number"),
            (1e12 + 1, "outside ±10.12"),
            (-1e12 - 1, "outside"),
        ):
            for form in (
                [(1, 2, 1.0), (2, 3, bad)],
                self.columns([(1, 2, 1.0), (2, 3, bad)], weights="float64"),
            ):
                with self.assertRaisesRegex(blossom.WeightError, said):
                    blossom.Instance.from_graph(form, "match")
        for limit in (10**12, -(10**12)):
            self.same(self.columns([(1, 2, limit)]), [(1, 2, limit)])

    def test_refusals_name_what_they_name_for_lists(self):
        rows = [(1, 2, 1), (2, 5, -3)]
        for form in (rows, self.columns(rows)):
            with self.assertRaisesRegex(
                blossom.WeightError, r"edge \(2, 5\) has negative weight -3"
            ):
                blossom.Instance.from_graph(form, "postman")
        with self.assertRaisesRegex(blossom.GraphError, "equal lengths"):
            blossom.Instance.from_graph((self.numpy.array([1, 2]), self.numpy.array([2])), "match")
        many = self.numpy.arange(5000)
        with self.assertRaisesRegex(blossom.LimitExceeded, "5001 nodes and 5000 edges"):
            blossom.Instance.from_graph((many, many + 1), "match")

    def test_no_edges(self):
        none = self.numpy.array([], "int64")
        self.assertEqual(
            blossom.Instance.from_graph((none, none, none), "match").text, b"p edge 0 0\n"
        )
        self.assertEqual(blossom.Instance.from_graph((none, none), "match", nodes=[4]).nodes, [4])

    def test_what_is_no_array_of_whole_numbers(self):
        numpy = self.numpy
        for first, second in (
            (numpy.array([0.5, 1]), numpy.array([1, 2])),
            (numpy.array([2**63], "uint64"), numpy.array([1], "uint64")),
            (numpy.array(["a"]), numpy.array(["b"])),
            (numpy.array([True]), numpy.array([False])),
        ):
            self.assertFalse(are_ends(first, second))
            self.assertEqual(
                blossom.Instance.from_graph((first, second), "match").ends,
                list(zip(first.tolist(), second.tolist())),
            )

    def test_columns_of_a_frame_come_back(self):
        pandas = wanted("pandas")
        frame = pandas.DataFrame(
            {
                "u": [3, 1],
                "v": [1, 2],
                "weight": [4, 5],
                "street": ["A", None],
                "seen": pandas.to_datetime(["2020-01-01", "2021-02-03"]),
            }
        )
        answer = blossom.max_weight_matching(frame)
        self.assertEqual(answer.edges, [(1, 2)])
        self.assertEqual(answer.rows[0]["street"], None)
        self.assertEqual(answer.rows[0]["seen"], frame["seen"].tolist()[1])
        self.assertEqual(answer.instance.nodes, [3, 1, 2])


if __name__ == "__main__":
    unittest.main()
