"""`python -m blossom`: from a file of a graph to a file of an answer, in one command."""
import csv
import io
import os
import re
import subprocess
import sys
import tempfile
import unittest
from xml.etree import ElementTree

import blossom
from support import TOP, wanted

STREETS = os.path.join(TOP, "examples", "streets.csv")
ROADS = "from;to;length;name\nA;B;4.5;Mill Lane\nB;C;4;Low Street\nA;C;9;High Street\n"


class Command(unittest.TestCase):
    def setUp(self):
        self.room = tempfile.TemporaryDirectory()
        self.addCleanup(self.room.cleanup)

    def path(self, name, text=None):
        path = os.path.join(self.room.name, name)
        if text is not None:
            with open(path, "w", encoding="utf-8") as file:
                file.write(text)
        return path

    def call(self, *words, given="", status=0):
        done = subprocess.run(
            [sys.executable, "-m", "blossom", *words], input=given, capture_output=True, text=True
        )
        self.assertEqual(done.returncode, status, done.stderr)
        self.assertNotIn("Traceback", done.stderr)
        return done

    def rows(self, text):
        return list(csv.DictReader(io.StringIO(text)))

    def test_a_pipe_that_nobody_reads(self):
        words = "solve - --from edges --kind match".split()
        reader, writer = os.pipe()
        os.close(reader)
        with os.fdopen(writer, "wb") as closed:
            done = subprocess.run(
                [sys.executable, "-m", "blossom", *words],
                input="a b 3\n",
                stdout=closed,
                stderr=subprocess.PIPE,
                text=True,
            )
        self.assertEqual((done.returncode, done.stderr), (1, ""))

    def test_a_tour_and_its_picture_in_one_command(self):
        tour, picture, proof = self.path("tour.csv"), self.path("tour.svg"), self.path("tour.txt")
        done = self.call(
            "solve",
            STREETS,
            "--kind",
            "postman",
            "-o",
            tour,
            "--picture",
            picture,
            "--certificate",
            proof,
            "--check",
        )
        self.assertEqual(
            (done.stdout, done.stderr), ("", "postman: weight 4130, accepted by the checker\n")
        )
        with open(tour, encoding="utf-8") as file:
            rows = self.rows(file.read())
        self.assertEqual((len(rows), sum(int(row["weight"]) for row in rows)), (16, 4130))
        self.assertEqual([row["step"] for row in rows], [str(step) for step in range(1, 17)])
        self.assertIn("4130", ElementTree.parse(picture).find("{*}title").text)
        with open(proof, encoding="ascii") as file:
            self.assertIn("s OPTIMAL postman 4130", file.read())

    def test_other_columns_come_back(self):
        words = [
            "solve",
            self.path("roads.csv", ROADS),
            "--kind",
            "path",
            "--source",
            "C",
            "--target",
            "A",
            "--weight",
            "length",
            "--scale",
            "10",
        ]
        rows = self.rows(self.call(*words).stdout)
        self.assertEqual(
            [(row["u"], row["v"], row["name"], row["weight"]) for row in rows],
            [("C", "B", "Low Street", "4"), ("B", "A", "Mill Lane", "4.5")],
        )
        found = self.path("found.graphml")
        self.call(*words, "-o", found)
        self.assertIn("Mill Lane", [data.text for data in ElementTree.parse(found).iter()])

    def test_degrees_between_bounds(self):
        pairs = "a b 1\nb c 2\nc d 1\na d 5\nd e 3\n"
        words = ["solve", "-", "--from", "edges", "--kind", "interval", "--check"]
        for bounds, weight, used in (
            (["--lower", "1", "--default-capacity", "1"], 5, "a1b c1d d1e"),
            (["--lower", "a=2,c=1", "--upper", "2"], 3, "a2b c1d"),
            (["--lower", "e=2", "--upper", "a=0,b=3,c=0,d=2,e=2"], 6, "d2e"),
        ):
            done = self.call(*words, *bounds, given=pairs)
            self.assertEqual(done.stderr, "interval: weight %d, accepted by the checker\n" % weight)
            self.assertEqual(
                ["%(u)s%(count)s%(v)s" % row for row in self.rows(done.stdout)], used.split()
            )

    def test_the_nodes_that_greatest_matchings_miss(self):
        words = ["solve", "-", "--from", "edges", "--kind", "gallai", "--check"]
        done = self.call(*words, given="a b\na c\na d\n")
        self.assertEqual(
            done.stderr,
            "gallai: weight 1, accepted by the checker\nD: b, c, d\nA: a\nC: empty\n",
        )

    def test_a_bottleneck(self):
        words = ["solve", "-", "--from", "edges", "--kind", "bottleneck", "--check"]
        proof = self.path("proof.txt")
        done = self.call(
            *words, "--scale", "2", "--certificate", proof, given="a b 1\nc d 9\na c 2.5\nb d 3\n"
        )
        self.assertEqual(done.stderr, "bottleneck: weight 3, accepted by the checker\n")
        self.assertEqual(
            ["%(u)s%(v)s%(weight)s" % row for row in self.rows(done.stdout)], ["ac2.5", "bd3"]
        )
        with open(proof, encoding="ascii") as file:
            self.assertRegex(file.read(), r"s OPTIMAL bottleneck 6\nx 3 1\nx 4 1\nu \d[ \d]*\n\Z")
        self.assertEqual(
            self.call(*words, given="").stderr, "bottleneck: weight 0, accepted by the checker\n"
        )
        self.assertIn(
            "no solution: no perfect matching exists: ",
            self.call(*words, given="a b\nb c\n", status=1).stderr,
        )

    def test_a_path_of_a_parity_from_the_later_node(self):
        done = self.call(
            "solve",
            "-",
            "--from",
            "edges",
            "--kind",
            "evenpath",
            "--source",
            "d",
            "--target",
            "a",
            "--check",
            given="a b 1\nb c 1\nc d 1\nb d 4\n",
        )
        self.assertEqual(done.stderr, "evenpath: weight 5, accepted by the checker\n")
        self.assertEqual(
            ["%(step)s%(u)s%(v)s%(weight)s" % row for row in self.rows(done.stdout)],
            ["1db4", "2ba1"],
        )

    def test_messages_name_words_of_the_command_line(self):
        roads = self.path("roads.csv", ROADS)
        for words, said in (
            ([], "pass --weight length, or --weight '' to count each edge as 1"),
            (
                ["--weight", "metres"],
                "which --weight metres names: the columns are 'length', 'name'",
            ),
            (
                ["--weight", "length"],
                "pass --scale 10 to multiply all weights, or --scale finest to round them",
            ),
            (["--weight", "length", "--scale", "none"], "--scale must be a positive number"),
            (["--weight", "length", "--scale", "1e12"], "pass a smaller scale, e.g. --scale"),
            (
                ["--weight", "", "--kind", "bmatch", "--degrees", "A"],
                "--degrees: 'A'; expected NODE=NUMBER",
            ),
            (["--weight", "", "--kind", "bmatch", "--degrees", "A=x"], "expected NODE=NUMBER"),
            (
                ["--weight", "", "--kind", "interval", "--lower", "1"],
                "or pass --default-capacity 1",
            ),
            (
                ["--weight", "", "--kind", "interval", "--lower", "A"],
                "in --lower: 'A'; expected NODE=NUMBER or a number for all",
            ),
            (
                ["--weight", "", "--kind", "interval", "--upper", "-1"],
                "invalid entry in --upper: '-1'",
            ),
            (
                ["--weight", "", "--kind", "interval", "--lower", "D=1", "--default-capacity", "1"],
                "node 'D' isn't in the graph",
            ),
            (
                ["--weight", "", "--kind", "interval", "--lower", "A=2", "--upper", "1"],
                "lower bound exceeds upper bound at node 'A': 2 > 1",
            ),
            (
                ["--weight", "", "--kind", "interval", "--default-capacity", "-2"],
                "--default-capacity must be a nonnegative integer or None, got -2",
            ),
            (
                ["--weight", "", "--kind", "match", "--default-capacity", "1"],
                "--default-capacity applies only to kinds",
            ),
            (
                ["--weight", "", "--kind", "match", "--upper", "1"],
                "--lower and --upper apply only to kind 'interval'",
            ),
            (["--weight", "", "--kind", "oddpath", "--source", "A"], "missing --target"),
            (["--weight", "", "-o", "answer.txt"], "pass --to"),
        ):
            done = self.call("solve", roads, *words, status=1)
            with self.subTest(words=words):
                self.assertIn(said, done.stderr)
                self.assertNotRegex(done.stderr, r"\b(scale|weight|rounding)=")
        self.call("solve", roads, "--weight", "", "--kind", "match")
        with self.assertRaisesRegex(blossom.WeightError, "pass scale=10 to .*, or scale='finest'"):
            blossom.chinese_postman([("a", "b", 0.5)])

    def test_what_has_no_answer(self):
        done = self.call("solve", "-", "--from", "edges", given="a b\nb c\n", status=1)
        self.assertEqual(
            (done.stdout, done.stderr[:43]), ("", "no solution: no perfect matching exists: re")
        )

    def test_what_proves_that_there_is_no_answer_is_drawn_and_written(self):
        picture, proof = self.path("parts.svg"), self.path("parts.txt")
        for kind, given, root in (
            ("postman", "a b\nc d\n", "edges are not connected"),
            ("perfect", "a b\nb c\nb d\n", "removing 'b' leaves more than 1 odd components"),
        ):
            words = ("solve", "-", "--from", "edges", "--kind", kind)
            done = self.call(
                *words, "--picture", picture, "--certificate", proof, given=given, status=1
            )
            self.assertEqual(done.stdout, "")
            self.assertIn(root, done.stderr)
            self.assertIsNotNone(ElementTree.parse(picture).find("{*}title"))
            with open(proof, encoding="ascii") as file:
                text = file.read()
            self.assertIn("s INFEASIBLE %s" % kind, text)
            graph = blossom.read(io.StringIO(given), "edges")
            self.assertTrue(blossom.check(graph, kind, text[text.index("s INFEASIBLE") :]))

    def test_a_picture_of_no_known_format_is_refused_before_anything_is_written(self):
        out = self.path("out.csv")
        done = self.call("solve", STREETS, "-o", out, "--picture", "x.bmp", status=1)
        self.assertIn("unknown picture format 'bmp': choose from svg, png, pdf", done.stderr)
        self.assertFalse(os.path.exists(out))

    def test_help_and_version(self):
        done = self.call("--version")
        self.assertEqual(done.stdout, "blossom %s\n" % blossom.__version__)
        for words in (["--help"], ["solve", "--help"], ["convert", "--help"]):
            self.assertIn("usage: python -m blossom", self.call(*words).stdout)
        told = " ".join(self.call("--help").stdout.split())
        for word in ("solve KIND [--brief]", "check KIND", "trial KIND START N M"):
            self.assertIn("`blossom %s`" % word, told)
        told = self.call("solve", "--help").stdout
        for word in (
            "--kind",
            "--weight",
            "--scale",
            "--picture",
            "--certificate",
            "--timeout",
            "--lower",
            "--upper",
            "--default-capacity",
        ):
            self.assertIn(word, told)
        for words in ([], ["marry"], ["solve"], ["solve", STREETS, "--timeuot", "3"]):
            self.assertIn("usage:", self.call(*words, status=2).stderr)

    def test_a_time_limit_and_a_program_that_is_not_there(self):
        done = self.call("solve", STREETS, "--program", "/nowhere/blossom", status=1)
        self.assertIn("can't be started", done.stderr)
        slow = self.path("slow", "#!/bin/sh\nexec sleep 60\n")
        os.chmod(slow, 0o755)
        done = self.call(
            "solve", STREETS, "--kind", "postman", "--program", slow, "--timeout", "0.2", status=1
        )
        self.assertIn("stopped after 0.2 seconds", done.stderr)

    def test_an_answer_that_the_checker_refuses(self):
        wrong = self.path(
            "wrong",
            "#!/bin/sh\ncat >/dev/null\n"
            "if [ $1 = solve ]; then echo s OPTIMAL perfect 3; echo x 1 1; exit 0; fi\n"
            "echo s REJECTED DualMissing 3; exit 1\n",
        )
        os.chmod(wrong, 0o755)
        words = ["solve", "-", "--from", "edges", "--program", wrong]
        done = self.call(*words, "--check", given="a b 3\n", status=1)
        self.assertIn("the checker rejected the answer: rule DualMissing at line 3", done.stderr)
        done = self.call(*words, given="a b 3\n")
        self.assertEqual(
            (done.stdout, done.stderr), ("u,v,weight,count\na,b,3,1\n", "perfect: weight 3\n")
        )

    def test_pictures_that_want_matplotlib(self):
        wanted("matplotlib")
        picture = self.path("tour.png")
        self.call(
            "solve",
            STREETS,
            "--kind",
            "postman",
            "--picture",
            picture,
            "-o",
            os.devnull,
            "--to",
            "csv",
        )
        with open(picture, "rb") as file:
            self.assertEqual(file.read(4), b"\x89PNG")

    def test_without_matplotlib_it_says_what_to_install(self):
        code = (
            "import sys; sys.modules['matplotlib'] = None; import blossom\n"
            "blossom.max_weight_matching([]).draw(file='nowhere.png')\n"
        )
        done = subprocess.run([sys.executable, "-c", code], capture_output=True, text=True)
        self.assertRegex(
            done.stderr.splitlines()[-1],
            "^ImportError: pictures .* need matplotlib: pip install matplotlib .*",
        )

    def test_a_checksum_stands_in_what_convert_writes(self):
        done = self.call("convert", STREETS, "--kind", "postman")
        of = blossom.Instance.from_graph(blossom.read(STREETS), "postman")
        self.assertEqual(done.stdout.splitlines()[0], "c instance sha256 " + of.checksum)
        self.assertTrue(re.search("^p edge 8 13$", done.stdout, re.M))
