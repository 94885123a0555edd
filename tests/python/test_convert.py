"""Files of graphs, and `python -m blossom convert`."""
import csv
import glob
import io
import os
import subprocess
import sys
import tempfile
import unittest
from xml.etree import ElementTree

import blossom
from blossom.process import find_program
from support import TOP, wanted

CSV = "from;to;weight;name\nA;B;4;Mill Lane\nB;C;4;\n\nC;D;4;Low Street\nA;D;4;\nA;C;5.0;High Street\n"
SQUARE = b"p edge 4 5\ne 1 2 4\ne 2 3 4\ne 3 4 4\ne 1 4 4\ne 1 3 5\n"
GRAPHML = """<?xml version="1.0"?><graphml xmlns="http://graphml.graphdrawing.org/xmlns">
<key id="d0" for="edge" attr.name="weight" attr.type="double"/><key id="d1" for="node" attr.name="value" attr.type="int"/>
<key id="d2" for="edge" attr.name="capacity" attr.type="int"/>
<graph edgedefault="undirected"><node id="x"><data key="d1">2</data></node><node id="y"/>
<edge source="x" target="z"><data key="d0">2.5</data></edge><edge source="y" target="z"><data key="d2">3</data></edge></graph></graphml>"""


def read(text, format):
    return blossom.read(io.StringIO(text), format)


class Read(unittest.TestCase):
    def test_csv(self):
        table = read(CSV, "csv")
        self.assertEqual(blossom.Instance.from_graph(table, "postman").text, SQUARE)
        self.assertEqual((table.nodes, table.names[0]), (["A", "B", "C", "D"], ("A", "B")))
        self.assertEqual(
            read("u,v,key\n1,2,a\n1,2,b\n", "csv").names, [("1", "2", "a"), ("1", "2", "b")]
        )
        self.assertEqual(read("\ufeffu\tv\tcapacity\nx\ty\t\n", "csv").capacities, [None])

    def test_csv_that_is_none(self):
        for text, words in (
            ("a,b\n1,2\n", "no columns for the edge ends"),
            ("", "no line of column names"),
            ("u,v\n1,\n", "line 2: missing edge end"),
            ("u,v,weight\n1,2,many\n", "must be a number"),
            ("u,v,key\n1,2,a\n1,2,a\n", "the same key"),
            ("u,v,weight\n1,2,nan\n", "must be a number"),
        ):
            with self.assertRaisesRegex(blossom.GraphError, words):
                read(text, "csv")

    def test_edge_lists(self):
        table = read("# streets\nA B 4 # Mill Lane\n\nB C\nA B 1 2\n", "edges")
        self.assertEqual(
            (table.names, table.weights, table.capacities),
            ([("A", "B", 0), ("B", "C", 0), ("A", "B", 1)], [4, 1, 1], [None, None, 2]),
        )
        self.assertEqual(read("A A 3\nA B\n", "edges").names, [("A", "A"), ("A", "B")])
        with self.assertRaisesRegex(blossom.GraphError, "expected 'u v"):
            read("A\n", "edges")

    def test_dimacs(self):
        table = read("c comment\np edge 3 2\nn 2 2\ne 1 2 5 3\ne 2 3\n", "dimacs")
        self.assertEqual(
            (table.nodes, table.ends, table.weights, table.capacities, table.values),
            ([1, 2, 3], [(1, 2), (2, 3)], [5, 1], [3, None], {2: 2}),
        )
        self.assertEqual((table.lower, table.upper), ({}, {}))
        table = read("p edge 3 0\nn 2 0 3\nn 3 1 1\n", "dimacs")
        self.assertEqual(
            (table.lower, table.upper, table.values), ({1: 0, 2: 0, 3: 1}, {1: 1, 2: 3, 3: 1}, {})
        )
        for text in (
            "p edge 2 0\nn 1 0 x\n",
            "p edge 2 0\nn 3 0 1\n",
            "p edge 2 0\nn 1 0 1 1\n",
            "p edge 2 0\nn 1\n",
            "e 1 2\n",
            "p edge 2 1\n",
            "p edge 2 1\ne 1 3\n",
            "p edge 2 1\ne 1\n",
            "p edge 2 0\nd 1\n",
            "p edge 2 0\np edge 2 0\n",
            "p edge 2 1\ne 1 x\n",
        ):
            with self.assertRaises(blossom.GraphError):
                read(text, "dimacs")

    def test_graphml(self):
        table = read(GRAPHML, "graphml")
        self.assertEqual(
            (table.nodes, table.names, table.capacities, table.values),
            (["x", "y", "z"], [("x", "z"), ("y", "z")], [None, 3], {"x": 2}),
        )
        self.assertEqual(
            blossom.Instance.from_graph(table, "bmatch", scale=2).text,
            b"p edge 3 2\ne 1 3 5\ne 2 3 2\nn 1 2\n",
        )
        table = read(
            GRAPHML.replace("value", "upper").replace(
                'id="y"/>', 'id="y"><data key="d1">1</data></node>'
            ),
            "graphml",
        )
        self.assertEqual((table.lower, table.upper, table.values), ({}, {"x": 2, "y": 1}, {}))
        self.assertEqual(
            blossom.Instance.from_graph(table, "interval", scale=2).bounds, [(0, 2), (0, 1), (0, 3)]
        )
        self.assertEqual(
            blossom.Instance.from_graph(table, "interval", scale=2, upper=1).bounds, [(0, 1)] * 3
        )
        self.assertEqual(
            blossom.Instance.from_graph(table, "interval", lower={"x": 2}, weight=None).bounds,
            [(2, 2), (0, 1), (0, 3)],
        )
        self.assertEqual(read(GRAPHML.replace("value", "lower"), "graphml").lower, {"x": 2})
        bare = GRAPHML.replace('key="d2"', 'key="capacity"')  # (a key that nothing declares)
        self.assertEqual(read(bare, "graphml").capacities, [None, 3])
        for text, words in (
            ("<a", "not well-formed XML"),
            ("<a/>", "no <graph> element"),
            ('<a><graph edgedefault="directed"/></a>', "directed"),
        ):
            with self.assertRaisesRegex(blossom.GraphError, words):
                read(text, "graphml")

    def test_graphml_of_networkx(self):
        networkx = wanted("networkx")
        graph = networkx.MultiGraph()
        graph.add_edge("a", "b", weight=3)
        graph.add_edge("a", "b", weight=1)
        with tempfile.TemporaryDirectory() as room:
            path = os.path.join(room, "graph.graphml")
            networkx.write_graphml(graph, path)
            self.assertEqual(blossom.min_weight_perfect_matching(blossom.read(path)).weight, 1)

    def test_names_of_files_say_their_format(self):
        with tempfile.TemporaryDirectory() as room:
            for ending, text in (
                (".csv", "u,v\na,b\n"),
                (".edges", "a b\n"),
                (".dimacs", "p edge 2 1\ne 1 2\n"),
                (".graphml", GRAPHML),
            ):
                path = os.path.join(room, "graph" + ending)
                with open(path, "w", encoding="utf-8") as file:
                    file.write(text)
                self.assertGreater(len(blossom.read(path).ends), 0)
        for call in (
            lambda: blossom.read("graph.unknown"),
            lambda: blossom.read("graph.csv", "xls"),
        ):
            with self.assertRaises((blossom.GraphError)):
                call()


class Command(unittest.TestCase):
    def setUp(self):
        self.room = tempfile.TemporaryDirectory()
        self.addCleanup(self.room.cleanup)

    def path(self, name, text=None):
        path = os.path.join(self.room.name, name)
        if text is not None:
            with open(path, "wb") as file:
                file.write(text if isinstance(text, bytes) else text.encode("utf-8"))
        return path

    def convert(self, *words, given=b"", status=0):
        done = subprocess.run(
            [sys.executable, "-m", "blossom", "convert", *words], input=given, capture_output=True
        )
        self.assertEqual(
            (done.returncode, status and bool(done.stderr)), (status, bool(status)), done.stderr
        )
        return done.stdout

    def solved(self, kind, instance):
        with open(instance, "rb") as file:
            done = subprocess.run([find_program(), "solve", kind], stdin=file, capture_output=True)
        return self.path("answer.txt", done.stdout)

    def test_a_tour_there_and_back(self):
        graph, instance, tour = (
            self.path("streets.csv", CSV),
            self.path("streets.dimacs"),
            self.path("tour.csv"),
        )
        self.convert(graph, "--kind", "postman", "-o", instance)
        with open(instance, "rb") as file:
            text = file.read()
        self.assertTrue(text.endswith(SQUARE))
        self.assertIn(b"c vertex 1 is 'A'\n", text)
        self.convert(
            graph, "--kind", "postman", "--answer", self.solved("postman", instance), "-o", tour
        )
        with open(tour, encoding="utf-8", newline="") as file:
            rows = list(csv.DictReader(file))
        self.assertEqual([row["step"] for row in rows], list("123456"))
        self.assertEqual(sum(float(row["weight"]) for row in rows), 26)
        self.assertEqual([row["v"] for row in rows[:-1]], [row["u"] for row in rows[1:]])

    def test_a_matching_to_graphml(self):
        graph, instance, found = (
            self.path("graph.edges", "a b 2\na b 1\n"),
            self.path("graph.dimacs"),
            self.path("found.graphml"),
        )
        self.convert(graph, "-o", instance)
        self.convert(graph, "--answer", self.solved("perfect", instance), "-o", found)
        edges = [
            element for element in ElementTree.parse(found).iter() if element.tag.endswith("}edge")
        ]
        self.assertEqual(
            [
                (edge.get("source"), edge.get("target"), [data.text for data in edge])
                for edge in edges
            ],
            [("a", "b", ["1", "1", "1"])],
        )
        self.assertEqual(blossom.read(found).weights, [1])
        self.convert(
            graph,
            "--kind",
            "bottleneck",
            "--answer",
            self.solved("bottleneck", instance),
            "-o",
            found,
        )
        self.assertEqual(blossom.read(found).weights, [1])

    def test_a_bottleneck_is_that_of_its_graph(self):
        answer = self.path("answer.txt", "s OPTIMAL bottleneck 5\nx 2 1\nx 3 1\nu 0\n")
        words = ["--from", "edges", "--kind", "bottleneck", "--answer", answer]
        self.assertEqual(
            self.convert("-", *words, given=b"a b 9\na c 3\nb d 5\n"),
            b"u,v,weight,count\na,c,3,1\nb,d,5,1\n",
        )
        self.convert("-", *words, given=b"a b 9\na c 3\nb d 2\n", status=1)

    def test_words_for_each_kind(self):
        edges = b"a b 1\nb c 1\na c 2.5\n"
        common = ["-", "--from", "edges", "--scale", "2"]
        begin = b"p edge 3 3\ne 1 2 2\ne 2 3 2\ne 1 3 5\n"
        for words, end in (
            (["--kind", "tjoin", "--terminals", "a,c"], b"n 1 1\nn 3 1\n"),
            (["--kind", "bmatch", "--degrees", "a=2,c=0"], b"n 1 2\nn 3 0\n"),
            (["--kind", "path", "--source", "c", "--target", "a"], b"n 1 1\nn 3 1\n"),
            (["--kind", "match"], b""),
            (["--kind", "bottleneck"], b""),
            (["--kind", "oddpath", "--source", "c", "--target", "a"], b"n 1 1\nn 3 1\n"),
            (["--kind", "evenpath", "--source", "a", "--target", "b"], b"n 1 1\nn 2 1\n"),
            (
                ["--kind", "interval", "--lower", "b=1", "--upper", "2"],
                b"n 1 0 2\nn 2 1 2\nn 3 0 2\n",
            ),
        ):
            self.assertTrue(self.convert(*common, *words, given=edges).endswith(begin + end))

    def test_bounds_of_a_file_there_and_back(self):
        graph, instance = self.path("pairs.edges", "a b 2\nb c 1\n"), self.path("pairs.dimacs")
        words = [
            "--kind",
            "interval",
            "--lower",
            "b=1",
            "--upper",
            "a=1,b=2,c=1",
            "--default-capacity",
            "1",
        ]
        self.convert(graph, *words, "-o", instance)
        again = self.convert(instance, "--kind", "interval")
        with open(instance, "rb") as file:
            self.assertEqual(again.partition(b"p edge")[2], file.read().partition(b"p edge")[2])
        self.assertTrue(again.endswith(b"e 1 2 2 1\ne 2 3 1 1\nn 1 0 1\nn 2 1 2\nn 3 0 1\n"))
        for words, end in (
            (["--lower", "1=1,2=0"], b"n 1 1 1\nn 2 0 2\nn 3 0 1\n"),
            (["--upper", "2=1"], b"n 1 0 1\nn 2 1 1\nn 3 0 1\n"),
            (["--upper", "3"], b"n 1 0 3\nn 2 1 3\nn 3 0 3\n"),
            (["--lower", "0"], b"n 1 0 1\nn 2 0 2\nn 3 0 1\n"),
        ):
            self.assertTrue(
                self.convert(instance, "--kind", "interval", *words).endswith(end), words
            )
        found = self.path("found.csv")
        self.convert(
            instance,
            "--kind",
            "interval",
            "--answer",
            self.solved("interval", instance),
            "-o",
            found,
        )
        with open(found, encoding="utf-8", newline="") as file:
            self.assertEqual(
                [dict(row) for row in csv.DictReader(file)],
                [{"u": "2", "v": "3", "weight": "1", "count": "1"}],
            )

    def test_answers_on_standard_output_are_csv(self):
        graph = self.path("graph.dimacs", "p edge 2 1\ne 1 2 5\n")
        answer = self.path("answer.txt", "s OPTIMAL perfect 5\nx 1 1\n")
        self.assertEqual(self.convert(graph, "--answer", answer), b"u,v,weight,count\n1,2,5,1\n")
        twice = self.path("twice.txt", "s OPTIMAL bmatch 20\nx 1 2\n")
        words = ["--kind", "bmatch", "--degrees", "1=2,2=2", "--scale", "2", "--answer", twice]
        self.assertEqual(self.convert(graph, *words), b"u,v,weight,count\n1,2,5,2\n")
        halves, answer = self.path("halves.edges", "a b 0.5\na b 2.5\n"), self.path(
            "least.txt", "s OPTIMAL perfect 1\nx 1 1\n"
        )
        self.assertEqual(
            self.convert(halves, "--scale", "2", "--answer", answer),
            b"u,v,key,weight,count\na,b,0,0.5,1\n",
        )

    def test_dimacs_nodes_are_numbers(self):
        graph = self.path("graph.dimacs", "p edge 3 2\ne 1 2 5\ne 2 3 6\n")
        self.assertTrue(
            self.convert(graph, "--kind", "tjoin", "--terminals", "1,3").endswith(b"n 1 1\nn 3 1\n")
        )

    def test_what_goes_wrong_is_said(self):
        graph = self.path("graph.edges", "a b 0.5\n")
        self.convert(graph, status=1)
        self.convert(self.path("nothing.csv"), status=1)
        self.convert(
            graph,
            "--scale",
            "2",
            "--answer",
            self.path("none.txt", "s INFEASIBLE perfect\nu 0\n"),
            status=1,
        )
        self.convert(graph, "--kind", "marriage", status=2)
        self.assertEqual(
            subprocess.run([sys.executable, "-m", "blossom"], capture_output=True).returncode, 2
        )

    def test_examples_of_the_repository(self):
        for path in sorted(glob.glob(os.path.join(TOP, "examples", "*.dimacs"))):
            kind = os.path.basename(path).partition("-")[0]
            kind = kind if kind in blossom.KINDS else "perfect"
            text = self.convert(path, "--kind", kind)
            with open(path, "rb") as file:
                given = file.read()
            runs = [
                subprocess.run([find_program(), "solve", kind], input=one, capture_output=True)
                for one in (given, text)
            ]
            self.assertEqual((runs[0].stdout, 0), (runs[1].stdout, runs[1].returncode), path)
