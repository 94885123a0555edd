"""What users met: an answer or a statement that was wrong without a word, and what they couldn't
find. Each test is one of these."""
import contextlib
import csv
import glob
import io
import itertools
import os
import random
import re
import subprocess
import sys
import tempfile
import unittest
from fractions import Fraction

import blossom
from support import TOP, StandIn, library_or_skip, wanted

STREETS = "u,v,weight,name\nA,B,10,Mill\nB,,5,Church\n,C,5,Oak\nC,A,7,Elm\n"
#: A town: a ring of four streets, a street across, and a lane that nobody lives in.
TOWN = [("a", "b", 1), ("b", "c", 2), ("c", "d", 1), ("d", "a", 2), ("a", "c", 5), ("c", "e", 4)]


def read(text, format="csv", **how):
    return blossom.read(io.StringIO(text), format, **how)


def weights(graph, **how):
    return blossom.Instance.from_graph(graph, "match", **how).weights


class Room(unittest.TestCase):
    def setUp(self):
        stack = contextlib.ExitStack()
        self.addCleanup(stack.close)
        self.room = stack.enter_context(tempfile.TemporaryDirectory())

    def path(self, name, text=None):
        path = os.path.join(self.room, name)
        if text is not None:
            with open(path, "w", encoding="utf-8") as file:
                file.write(text)
        return path

    def blossom(self, *words, status=0):
        """What a command prints on standard output and on standard error."""
        done = subprocess.run(
            [sys.executable, "-m", "blossom", *words], capture_output=True, text=True
        )
        self.assertEqual(done.returncode, status, done.stderr)
        return done.stdout, done.stderr


class NeverWrongInSilence(Room):
    def refused(self, said, call, *words, error=blossom.GraphError, **how):
        with self.assertRaisesRegex(error, said):
            call(*words, **how)

    def test_a_missing_end_is_no_node(self):
        nan = float("nan")
        for ends in (("a", None), (nan, "a"), (None, None)):
            said = r"missing edge end in row 1: "
            self.refused(said, weights, [("a", "b"), ends])
            self.refused(said, weights, {"u": ["a", ends[0]], "v": ["b", ends[1]]})
        self.refused("row 1", weights, [(1.0, 2.0, 3), (nan, 2.0, 3)])
        self.assertEqual(weights([(1.0, 2.0, 3), ("", (None, 1), 4)]), [3, 4])

    def test_nor_one_of_a_frame(self):
        pandas = wanted("pandas")
        frame = pandas.read_csv(io.StringIO(STREETS))
        self.refused("missing edge end in row 1: .*'B', nan", blossom.chinese_postman, frame)
        numbers = pandas.DataFrame({"u": [1, None], "v": [2, 3], "weight": [1, 2]})
        self.refused("missing edge end in row 1", weights, numbers)
        some = pandas.DataFrame({"u": pandas.array([1, None], dtype="Int64"), "v": [2, 3]})
        self.refused("missing edge end in row 1", weights, some)

    def test_nor_one_of_a_network(self):
        graph = wanted("networkx").Graph([("a", float("nan"))])
        self.refused("missing edge end in row 0", weights, graph)

    def test_fields_past_the_last_column_of_a_csv_file(self):
        comma = "from,to,weight\nA,B,10,5\nB,C,3,2\n"
        self.refused("line 2 has 4 fields, but the header has 3 columns", read, comma)
        self.assertEqual(weights(read("u,v,weight\nA,B,10,\nB,C,3, ,\n")), [10, 3])
        self.assertEqual(weights(read('u,v,weight\n"A,1",B,10\n')), [10])
        many = 'u,v,weight\n"A\n1",B,10\nA,B,1,2\n'
        self.refused("line 4 has 4 fields", read, many)

    def test_comments_of_a_csv_file(self):
        self.refused("line 3 begins with '#'", read, "u,v,weight\nA,B,1\n# a note, of mine, 3\n")
        self.refused("begins with a comment, '# roads'", read, "# roads\nu,v\nA,B\n")
        self.assertEqual(read('u,v\n"#1",B\n').nodes, ["#1", "B"])

    def test_weights_under_a_name_that_is_not_known(self):
        for name in ("weigth", "wieght", "w", "W", "len", "km", "minutes", "score", "value"):
            said = "no 'weight', but '%s' may be: pass weight='%s'" % (name, name)
            graphs = (
                {"u": ["a"], "v": ["b"], name: [3]},
                [("a", "b", {name: 2.5})],
                read("u,v,%s\na,b,3\n" % name),
            )
            for graph in graphs:
                with self.subTest(name, graph=type(graph)):
                    self.refused(said, weights, graph)
                    self.assertEqual(weights(graph, weight=None), [1])
        self.refused("but 'id', 'km' may be: pass weight='id'", weights, read("u,v,id,km\na,b,3,4"))
        self.assertEqual(weights(read("u,v,name\na,b,Mill\n")), [1])
        self.assertEqual(weights({"u": ["a"], "v": ["b"], "capacity": [3]}), [1])

    def test_weights_of_numpy_and_networkx_under_such_a_name(self):
        numpy, networkx = wanted("numpy"), wanted("networkx")
        lists = {"u": numpy.array([1]), "v": numpy.array([2]), "km": numpy.array([3.5])}
        self.refused("'km' may be", weights, lists)
        self.refused("'km' may be", weights, networkx.Graph([("a", "b", {"km": 3})]))

    def test_rows_have_the_weights_that_were_given(self):
        text = b"s OPTIMAL postman 2\nw 1 2 1 1\n"
        streets = read("u,v,length\na,b,136.8\n")
        tour = blossom.chinese_postman(
            streets, weight="length", scale="finest", engine=StandIn(0, text)
        )
        row = tour.rows[0]
        self.assertEqual((row["weight"], type(row["weight"])), (136.8, float))
        self.assertAlmostEqual(row["rounded_weight"], 136.8, places=6)
        self.assertNotEqual(Fraction(row["rounded_weight"]), Fraction("136.8"))
        tour = blossom.chinese_postman(
            [("a", "b", 0.1)],
            rounding="nearest",
            engine=StandIn(0, b"s OPTIMAL postman 0\nw 1 2 1 1\n"),
        )
        self.assertEqual((tour.rows[0]["weight"], tour.rows[0]["rounded_weight"]), (0.1, 0.0))
        exact = blossom.chinese_postman(
            streets,
            weight="length",
            scale=10,
            engine=StandIn(0, b"s OPTIMAL postman 2736\nw 1 2 1 1\n"),
        )
        self.assertNotIn("rounded_weight", exact.rows[0])
        self.assertEqual(str(exact.weight), "273.6")
        self.assertEqual("%s %s" % (exact.weight, format(exact.weight, ".2f")), "273.6 273.60")

    def test_files_have_the_weights_that_were_given(self):
        town = self.path("town.csv", "u,v,length,name\na,b,136.8,Mill\nb,c,0.1,Oak\nc,a,7,Elm\n")
        words = ("solve", town, "--kind", "postman", "--weight", "length", "--scale", "finest")
        out, told = self.blossom(*words)
        self.assertEqual(
            sorted(row["weight"] for row in csv.DictReader(io.StringIO(out))),
            ["0.1", "136.8", "7"],
        )
        self.assertRegex(
            told, r"^postman: weight 143.9 \(weights rounded to multiples of 2\^-\d+\)"
        )

    GRAPHML = (
        '<graphml><key id="w" for="edge" attr.name="weight"><default>5</default></key>'
        '<key id="x" for="node" attr.name="x"/><key id="y" for="node" attr.name="y"/>'
        '<graph edgedefault="undirected">%s<edge source="a" target="b"%s/>'
        '<edge source="b" target="c"><data key="w">7</data></edge></graph></graphml>'
    )
    NODES = "".join(
        '<node id="%s"><data key="x">%s</data><data key="y">%s</data></node>' % node
        for node in (("a", 0, 0), ("b", 10, 0), ("c", 10, 2.5))
    )

    def test_positions_of_a_graphml_file(self):
        table = read(self.GRAPHML % (self.NODES, ""), "graphml")
        self.assertEqual(table.positions, {"a": (0, 0), "b": (10, 0), "c": (10, 2.5)})
        answer = blossom.max_weight_matching(
            table, engine=StandIn(0, b"s OPTIMAL match 7\nx 2 1\n")
        )
        there = {"a": (0, 0), "b": (10, 0), "c": (10, 2.5)}
        self.assertEqual(answer.draw().svg(), answer.draw(there).svg())
        self.assertNotEqual(answer.draw().svg(), answer.draw({**there, "c": (0, 9)}).svg())
        room = io.BytesIO()
        blossom.formats.write_answer(answer, room, "graphml")
        self.assertEqual(read(room.getvalue().decode(), "graphml").positions, table.positions)
        self.assertEqual(read(self.GRAPHML % ("", ""), "graphml").positions, {})

    def test_defaults_of_a_graphml_file(self):
        table = read(self.GRAPHML % (self.NODES, ""), "graphml")
        self.assertEqual((table.weights, table.weight_name), ([5, 7], "weight"))
        values = self.GRAPHML.replace(
            "<graph e",
            '<key id="n" for="node" attr.name="value"><default>2</default></key><graph e',
        )
        table = read(values % (self.NODES, ""), "graphml")
        self.assertEqual(table.values, {"a": 2, "b": 2, "c": 2})

    def test_directed_edges_of_a_graphml_file(self):
        self.refused(
            "has a directed edge", read, self.GRAPHML % ("", ' directed="true"'), "graphml"
        )
        self.assertEqual(len(read(self.GRAPHML % ("", ' directed="false"'), "graphml").ends), 2)

    def test_an_answer_that_is_not_best_any_more(self):
        old = self.path("k1.csv", "u,v,weight\nA,B,1\nC,D,1\nA,C,5\nB,D,5\n")
        new = self.path("k2.csv", "u,v,weight\nA,B,1\nC,D,1\nA,C,0\nB,D,0\n")
        answer = blossom.min_weight_perfect_matching(blossom.read(old))
        text = self.path("k1.txt", str(answer.certificate))
        words = ("--kind", "perfect", "--answer", text)
        self.assertIn("A,B,1,1", self.blossom("convert", old, *words)[0])
        _, told = self.blossom("convert", new, *words, status=1)
        self.assertRegex(told, "has no optimal answer for this graph: the checker rejected it")

    def test_an_answer_that_cannot_be_judged_is_said_not_to_be(self):
        old = self.path("k1.csv", "u,v,weight\nA,B,1\nC,D,1\nA,C,5\nB,D,5\n")
        text = self.path("k1.txt", "s OPTIMAL perfect 2\nx 1 1\nx 2 1\n")
        _, told = self.blossom("convert", old, "--kind", "perfect", "--answer", text)
        self.assertEqual(told, "not judged: %s has no certificate\n" % text)

    def test_a_join_without_terminals(self):
        self.refused("kind 'tjoin' needs terminals=", blossom.solve, TOWN, "tjoin")
        town = self.path("town.csv", "u,v,weight\na,b,1\n")
        _, told = self.blossom("solve", town, "--kind", "tjoin", status=1)
        self.assertIn("kind 'tjoin' needs --terminals: pass the nodes of odd degree", told)
        of = blossom.Instance.from_graph(TOWN, "tjoin", terminals=[])
        self.assertEqual(of.values, [0] * 5)
        dimacs = self.path("town.dimacs", "p edge 2 1\ne 1 2 1\n")
        self.blossom("convert", dimacs, "--kind", "tjoin")

    def test_a_text_is_no_list_of_nodes(self):
        said = "terminals= must be an iterable of nodes, got the text 'ac': pass"
        self.refused(said, blossom.t_join, TOWN, "ac", error=TypeError)
        self.refused("nodes= must be .* 'ac'", weights, TOWN, nodes="ac", error=TypeError)

    def test_a_matrix_of_two_nodes(self):
        self.refused("a 2 × 2 matrix", weights, [[0, 5], [5, 0]])
        self.assertEqual(weights([(0, 5), (5, 0)]), [1, 1])

    def test_dates_come_back_as_dates(self):
        pandas = wanted("pandas")
        days = pandas.to_datetime(["2020-01-01", "2021-01-01"])
        frame = pandas.DataFrame({"u": ["a", "b"], "v": ["b", "c"], "day": days})
        answer = blossom.max_weight_matching(
            frame, engine=StandIn(0, b"s OPTIMAL match 1\nx 1 1\n")
        )
        self.assertEqual(answer.rows[0]["day"], days[0])
        ends = pandas.DataFrame({"u": days, "v": ["b", "c"]})
        self.assertEqual(blossom.Instance.from_graph(ends, "match").nodes[0], days[0])

    def test_names_of_columns_for_lists_of_tuples(self):
        said = "weight='length' names an attribute, but the edges are tuples"
        self.refused(said, weights, TOWN, weight="length")
        self.refused("capacity='cap' names", weights, TOWN, capacity="cap")
        self.refused("weight= must be the name", weights, TOWN, weight=3, error=TypeError)

    def test_numbers_of_32_bits_are_what_they_print(self):
        numpy = wanted("numpy")
        column = numpy.array([0.1, 2.5], dtype=numpy.float32)
        graph = {"u": ["a", "b"], "v": ["b", "c"], "weight": column}
        self.assertEqual(weights(graph, scale=10), [1, 25])


class ByBothEngines(unittest.TestCase):
    def test_what_has_no_answer_is_checked_by_both(self):
        library_or_skip()
        apart = [("a", "b", 1), ("c", "d", 1)]
        for kind, how in (
            ("postman", {}),
            ("tjoin", {"terminals": ["a", "c"]}),
            ("path", {"source": "a", "target": "c"}),
            ("oddpath", {"source": "a", "target": "c"}),
            ("evenpath", {"source": "a", "target": "b"}),
            ("perfect", {"nodes": ["z"]}),
            ("interval", {"lower": 2, "default_capacity": 1}),
        ):
            for engine, other in itertools.product(("process", "library"), repeat=2):
                with self.subTest(kind, engine=engine, other=other):
                    with self.assertRaises(blossom.Infeasible) as told:
                        blossom.solve(apart, kind, engine=engine, **how)
                    self.assertTrue(told.exception.certificate.check(engine=other))

    def test_a_tour_of_no_streets(self):
        library_or_skip()
        for engine, nodes in itertools.product(("process", "library"), ([], ["a"], ["a", "b"])):
            with self.subTest(engine, nodes=nodes):
                tour = blossom.chinese_postman([], nodes=nodes, engine=engine)
                self.assertEqual((tour.node_walk, tour.weight, bool(tour.check())), ([], 0, True))


class Tours(unittest.TestCase):
    def tour(self, weight, **how):
        tour = blossom.chinese_postman(TOWN, **how)
        self.assertEqual(tour.weight, weight)
        walk = tour.node_walk
        self.assertEqual(walk[0], walk[-1])
        self.assertEqual([step[:2] for step in tour.edge_walk], list(zip(walk, walk[1:])))
        self.assertTrue(tour.check())
        return tour

    def test_a_depot(self):
        whole = self.tour(22)
        for start in "abcde":
            tour = self.tour(22, start=start)
            self.assertEqual(tour.node_walk[0], start)
            self.assertEqual(sorted(tour.edge_walk_indices), sorted(whole.edge_walk_indices))
            self.assertEqual(tour.edge_counts, whole.edge_counts)
            self.assertEqual(tour.rows[0]["step"], 1)
        with self.assertRaisesRegex(blossom.GraphError, "node 'z' isn't in the graph"):
            blossom.chinese_postman(TOWN, start="z")
        with self.assertRaisesRegex(blossom.GraphError, "can't start at 'z': no edge meets it"):
            blossom.chinese_postman(TOWN, start="z", nodes=["z"])

    def test_streets_that_need_no_visit(self):
        tour = self.tour(8, required=[("c", "a"), ("b", "a"), ("c", "b")], start="b")
        self.assertEqual(tour.node_walk[0], "b")
        self.assertEqual(self.tour(8, required=[("c", "e")]).multiplicities, {("c", "e"): 2})
        self.assertEqual(self.tour(6, required=TOWN_RING).edge_counts, [1, 1, 1, 1, 0, 0])

    def test_of_a_column(self):
        text = "u,v,weight,visit\na,b,1,yes\nb,c,2,\nc,d,1,0\nd,a,2,yes\n"
        tour = blossom.chinese_postman(read(text), required="visit")
        self.assertEqual((tour.weight, sum(tour.edge_counts)), (6, 4))
        with self.assertRaisesRegex(blossom.GraphError, "no edge has 'vist', which required="):
            blossom.chinese_postman(read(text), required="vist")

    def test_required_streets_in_two_parts(self):
        said = "the required edges are in 2 parts: one of 2 nodes .'a', 'b'.*'c', 'e'.*; add edges"
        with self.assertRaisesRegex(blossom.GraphError, said):
            blossom.chinese_postman(TOWN, required=[("a", "b"), ("c", "e")])
        for wrong in ([("a", "z")], ["ab"], [5]):
            with self.assertRaisesRegex(blossom.GraphError, "isn't an edge of the graph"):
                blossom.chinese_postman(TOWN, required=wrong)
        with self.assertRaisesRegex(TypeError, "required= must be"):
            blossom.chinese_postman(TOWN, required=5)
        with self.assertRaisesRegex(blossom.GraphError, "2 such edges: name one with its key"):
            blossom.chinese_postman(TOWN + [("a", "b", 9)], required=[("b", "a")])

    def test_against_all_choices_of_streets(self):
        chance = random.Random(5)
        for _ in range(12):
            edges = made_town(chance)
            required = connected_edges(chance, edges)
            with self.subTest(edges=edges, required=required):
                tour = blossom.chinese_postman(edges, required=[edges[one][:2] for one in required])
                least = least_tour(edges, required)
                self.assertEqual(tour.weight, least)
                self.assertTrue(all(tour.edge_counts[one] for one in required) and tour.check())
                steps = sum(edges[index][2] for index in tour.edge_walk_indices)
                self.assertEqual(steps, least)

    def test_which_part_of_a_town(self):
        with self.assertRaises(blossom.Infeasible) as told:
            blossom.chinese_postman(TOWN + [("x1", "x2", 1), ("x2", "x3", 1)])
        self.assertEqual(
            str(told.exception),
            "no closed walk covers all edges: the edges are not connected: they are in 2 parts that"
            " no edge joins: one of 5 nodes ('a', 'b', 'c', ..), one of 3 nodes ('x1', 'x2', 'x3')",
        )


TOWN_RING = [edge[:2] for edge in TOWN[:4]]


def made_town(chance):
    """A small connected graph without parallel edges."""
    nodes = chance.randint(3, 5)
    edges = {(chance.randrange(node), node): chance.randint(0, 9) for node in range(1, nodes)}
    for pair in itertools.combinations(range(nodes), 2):
        if len(edges) < 7 and chance.random() < 0.5:
            edges[pair] = chance.randint(0, 9)
    return [(*pair, weight) for pair, weight in edges.items()]


def connected_edges(chance, edges):
    """Some edges that are connected, by index."""
    found = [chance.randrange(len(edges))]
    for index in range(len(edges)):
        met = {node for one in found for node in edges[one][:2]}
        if index not in found and met & set(edges[index][:2]) and chance.random() < 0.5:
            found.append(index)
    return sorted(found)


def least_tour(edges, required):
    """The least weight of edges, each used up to twice more, that with the required ones give all
    nodes an even degree. (They are connected: what isn't joined to these could be left out.)"""
    best = None
    for counts in itertools.product((0, 1), repeat=len(edges)):
        times = [count + (index in required) for index, count in enumerate(counts)]
        degree = {}
        for (u, v, _), count in zip(edges, times):
            degree[u] = degree.get(u, 0) + count
            degree[v] = degree.get(v, 0) + count
        if not any(one % 2 for one in degree.values()):
            weight = sum(edge[2] * count for edge, count in zip(edges, times))
            best = weight if best is None else min(best, weight)
    return best


class NamesOfNetworkx(unittest.TestCase):
    def graphs(self, count=20):
        chance = random.Random(7)
        for _ in range(count):
            nodes = chance.randint(1, 7)
            pairs = list(itertools.combinations(range(nodes), 2))
            chosen = chance.sample(pairs, chance.randint(0, min(len(pairs), 9)))
            yield list(range(nodes)), [(*pair, chance.randint(-9, 20)) for pair in chosen]

    def test_matchings_of_the_most_edges(self):
        for nodes, edges in self.graphs():
            found = [
                (len(some), sum(edges[one][2] for one in some))
                for size in range(len(edges) + 1)
                for some in itertools.combinations(range(len(edges)), size)
                if len({end for one in some for end in edges[one][:2]}) == 2 * size
            ]
            most = max(found)[0]
            least = min(weight for size, weight in found if size == most)
            with self.subTest(nodes=nodes, edges=edges):
                greatest = blossom.max_weight_matching(edges, maxcardinality=True, nodes=nodes)
                self.assertEqual((len(greatest.edges), greatest.weight), max(found))
                answer = blossom.min_weight_matching(edges, nodes=nodes)
                self.assertEqual((len(answer.edges), answer.weight), (most, least))
                self.assertEqual(len(answer.mate), 2 * most)
                self.assertTrue(answer.check() and greatest.check())

    def test_a_scale_is_that_of_the_answer_and_not_of_its_certificate(self):
        edges = [("a", "b", 0.5), ("b", "c", 1.5), ("c", "d", 0.5)]
        answer = blossom.max_weight_matching(edges, maxcardinality=True, scale=2)
        self.assertEqual((answer.weight, answer.instance.scale), (1, 2))
        certificate = answer.certificate
        self.assertEqual(certificate.instance.scale, 1)
        self.assertEqual(certificate.dual_value, -2 * certificate.document.weight)

    def test_weights_that_differ_too_much(self):
        big = 10**12
        edges = [("a", "b", big), ("b", "c", -big), ("c", "d", big), ("d", "a", -big)]
        self.assertEqual(blossom.min_weight_matching(edges).weight, -2 * big)
        self.assertEqual(blossom.max_weight_matching(edges, True).weight, 2 * big)
        with self.assertRaisesRegex(blossom.WeightError, "differ by .*, too much for a maximum-"):
            blossom.min_weight_matching(edges + [("d", "e", 1)])

    def test_edge_covers(self):
        for nodes, edges in self.graphs(30):
            met = {end for edge in edges for end in edge[:2]}
            with self.subTest(nodes=nodes, edges=edges):
                if met != set(nodes):
                    with self.assertRaisesRegex(blossom.Infeasible, "at least 1, and has no edge"):
                        blossom.min_weight_edge_cover(edges, nodes=nodes)
                    continue
                cover = blossom.min_weight_edge_cover(edges, nodes=nodes)
                known = blossom.degree_constrained_subgraph(edges, 1, nodes=nodes)
                self.assertEqual(cover.weight, known.weight)
                self.assertEqual({end for edge in cover.edges for end in edge[:2]}, met)
                self.assertTrue(cover.check())
                self.assertEqual(cover.weight, sum(row["weight"] for row in cover.rows))

    def test_loops_and_parallel_edges_in_covers(self):
        edges = [("a", "a", 1), ("a", "b", 5), ("a", "b", 4), ("c", "c", -2)]
        cover = blossom.min_weight_edge_cover(edges)
        self.assertEqual((cover.weight, cover.edge_counts), (2, [0, 0, 1, 1]))
        self.assertEqual(blossom.min_weight_edge_cover([("a", "a", 1)]).edge_indices, [0])

    def test_a_cover_of_many_edges(self):
        edges = [(node, (node * 7 + 1) % 3000, node % 13 + 1) for node in range(3000)]
        cover = blossom.min_weight_edge_cover(edges, certificate=False)
        self.assertEqual(len({end for edge in cover.edges for end in edge[:2]}), 3000)


class WhatToDo(Room):
    def test_past_a_limit(self):
        chain = [(node, node + 1) for node in range(2048)]
        for kind, edges, how, told in (
            ("postman", 4 * chain + chain[:1], {}, "replace each chain of edges without a cross"),
            ("tjoin", [("hub", n) for n in range(1448)], {"terminals": []}, "split that node into"),
            ("bmatch", chain, {"degrees": dict.fromkeys(range(2049), 8)}, "pass smaller degrees"),
            ("ffactor", 4 * chain, {}, "pass smaller degrees or capacities, or fewer edges"),
            (
                "interval",
                chain + chain[:1],
                {"lower": 1, "default_capacity": 1},
                r"edge cover of more than 2048 edges is solved by min_weight_edge_cover\(graph\)",
            ),
        ):
            with self.subTest(kind), self.assertRaisesRegex(blossom.LimitExceeded, told):
                blossom.solve(edges, kind, **how)

    def test_names_of_columns_in_capitals(self):
        for header in ("From,To,weight", "U,V,weight", "SOURCE,TARGET,weight"):
            self.assertEqual(weights(read(header + "\nA,B,10\n")), [10])
        length = read("From,To,Length\nA,B,10\n")
        self.assertEqual(weights(length, weight="Length"), [10])
        with self.assertRaisesRegex(blossom.GraphError, "'Length' may be: pass weight='Length'"):
            weights(length)

    def test_a_column_of_two_dimensions(self):
        table = wanted("numpy").zeros((2, 2))
        for graph in ({"u": table, "v": [1, 2]}, {"u": [1, 2], "v": [2, 3], "weight": table}):
            with self.assertRaisesRegex(blossom.GraphError, r"one dimension, got .*\(2, 2\)"):
                weights(graph)

    def test_formats_that_files_do_not_have(self):
        town = self.path("town.csv", "u,v,weight\na,b,1\n")
        for output in ("tour.xlsx", "tour.gml"):
            _, told = self.blossom("solve", town, "-o", self.path(output), status=1)
            self.assertIn("use .csv or .graphml, or pass --to", told)
        _, told = self.blossom("solve", "town.xlsx", status=1)
        self.assertIn("'town.xlsx': pass --from (csv, edges, graphml, dimacs)", told)

    def test_pages_count_the_kinds(self):
        counts = r"\b(?:all|the)\s+(\w+teen|ten|eleven|twelve|\d\d)\s+(?:kinds|problems)\b"
        found = set()
        for form in ("*.md", os.path.join("*", "*.md")):
            for page in glob.glob(os.path.join(TOP, form)):
                with open(page, encoding="utf-8") as file:
                    found |= set(re.findall(counts, file.read()))
        self.assertEqual((found, len(blossom.KINDS)), ({"thirteen"}, 13))


if __name__ == "__main__":
    unittest.main()
