"""Types: the package passes mypy as strictly as that can be, and mypy finds mistakes of callers."""
import os
import re
import shutil
import subprocess
import sys
import tempfile
import unittest

from support import TOP

PYTHON = os.path.join(TOP, "python")
# Lines that are wrong, each with a word of what is said of it; and lines that are right.
WRONG = (
    ("blossom.chinese_postman(STREETS, timeuot=5)", "timeuot"),
    ("blossom.solve(STREETS, 'postmann')", "Literal"),
    ("blossom.chinese_postman(5)", 'has incompatible type "int"'),
    ("blossom.chinese_postman(None)", "None"),
    ("blossom.solve_many('tours', [STREETS])", "solve_many"),
    ("blossom.solve_many('postman', [STREETS], errors='ignore')", "solve_many"),
    ("blossom.solve_many('postman', [STREETS])[0].barrier", '"Answer" has no attribute "barrier"'),
    ("blossom.chinese_postman(STREETS).wieght", 'no attribute "wieght"'),
    ("blossom.chinese_postman(STREETS).check().rules", '"Verdict" has no attribute "rules"'),
    ("blossom.chinese_postman(STREETS).check(tiemout=3)", "tiemout"),
    ("blossom.chinese_postman(STREETS, engine='telepathy')", "engine"),
    ("blossom.chinese_postman(STREETS, rounding='down')", "rounding"),
    ("blossom.chinese_postman(STREETS).draw(colour=3)", "colour"),
    ("blossom.draw('tour.txt')", "draw"),
    ("blossom.Decoder(sclae=3)", "sclae"),
    ("blossom.Decoder().add_edge(0, 1, merge_strategy='merge')", "merge_strategy"),
    ("blossom.read(5)", "read"),
    ("blossom.Decoder([[1, 1]]).decode([1]).weight", '"List[int]" has no attribute "weight"'),
    ("blossom.Decoder([[1, 1]]).decode([1], return_weight=True)[2]", "out of range"),
    ("blossom.Decoder([[1, 1]]).decode(1.5, weight=True)", "decode"),
    ("blossom.t_join(STREETS)", "terminals"),
    ("blossom.shortest_path(STREETS, 'a', 'b', parity='both')", "parity"),
    ("blossom.degree_constrained_subgraph(STREETS, lower=1.5)", "lower"),
    ("blossom.degree_constrained_subgraph(STREETS, least=1)", "least"),
    ("blossom.solve_many('interval', [STREETS], default_capacity='all')", "solve_many"),
    ("blossom.bottleneck_perfect_matching(STREETS, degrees={'a': 2})", "degrees"),
    ("blossom.gallai_edmonds_decomposition(STREETS, weight='length')", "weight"),
    ("blossom.solve(STREETS, 'bottlenek')", "Literal"),
    ("blossom.perfect_matching(STREETS)", "perfect_matching"),
    ("blossom.chinese_postman(STREETS, via='library')", "via"),
)
RIGHT = """
steps: int = len(blossom.chinese_postman(STREETS, timeout=5).edge_walk)
rule: Optional[str] = blossom.chinese_postman(STREETS).check(engine="library").rule
text: str = blossom.chinese_postman(STREETS).draw(width=300, labels={"a": "A"}).svg()
answers: List[blossom.Answer] = blossom.solve_many("match", [STREETS, STREETS])
weights = [one.weight for one in blossom.solve_many("match", [STREETS], errors="return")
           if isinstance(one, blossom.Answer)]
blossom.min_weight_perfect_matching({"u": ["a"], "v": ["b"], "weight": [3]}, scale="finest")
blossom.min_weight_perfect_matching(blossom.read("streets.csv", weight="length"), certificate=False)
blossom.solve(blossom.Instance.from_graph([("a", "b")], "tjoin", terminals=["a", "b"]), "tjoin")
blossom.shortest_path(STREETS, "a", "b", engine=blossom.Process("blossom"))
blossom.degree_constrained_subgraph(STREETS, 1, {"a": 2}, default_capacity=None, capacity="limit").check()
blossom.degree_constrained_subgraph(STREETS, lower="need", upper=3).multiplicities
blossom.solve_many("interval", [STREETS], lower=1, upper=2, default_capacity=3)
sides: List[int] = [blossom.vertices.Layer("a", 0).layer, blossom.vertices.Mirror(blossom.vertices.Copy("a", 0), 1).half]
even: List[int] = blossom.shortest_path(STREETS, "a", "b", parity="even").edge_walk_indices
barrier: Optional[List[Any]] = blossom.bottleneck_perfect_matching(STREETS).certificate.barrier
heaviest = blossom.bottleneck_perfect_matching(STREETS, weight=None, scale="finest", certificate=False).weight + 1
sets: Optional[blossom.GallaiEdmonds] = blossom.gallai_edmonds_decomposition(STREETS).decomposition
path: List[Any] = blossom.gallai_edmonds_decomposition(STREETS, nodes=["z"], engine="library").alternating_path("a")
blossom.solve_many("bottleneck", [STREETS], errors="return", engine="library")
flips: List[int] = blossom.Decoder([[1, 1, 0], [0, 1, 1]], error_probabilities=0.1).decode({1})
flips, least = blossom.Decoder([[1, 1, 0], [0, 1, 1]]).decode([1, 0], return_weight=True)
first, second = blossom.Decoder([[1, 1, 0], [0, 1, 1]]).decode_to_edges_array([1, 0])[0]
"""
HEAD = ("from typing import Any, List, Optional\nimport blossom\n"
        "STREETS = [('a', 'b', 3), ('b', 'c', 4), ('a', 'c', 5)]\n")


def mypy():
    """What runs mypy, or a test that is skipped where it isn't installed."""
    found = shutil.which("mypy") or shutil.which("mypy", path="/usr/bin")
    if found is None:
        raise unittest.SkipTest("mypy isn't installed")
    return [found, "--strict", "--python-executable", sys.executable, "--no-error-summary"]


class Types(unittest.TestCase):
    def run_mypy(self, room, *words):
        return subprocess.run([*mypy(), "--cache-dir", os.path.join(room, "cache"), *words],
                              cwd=PYTHON, env=dict(os.environ, MYPYPATH=PYTHON),
                              capture_output=True, text=True)

    def test_mypy_of_the_package_and_of_what_callers_write(self):
        with tempfile.TemporaryDirectory() as room:
            done = self.run_mypy(room, "blossom")
            self.assertEqual((done.returncode, done.stdout, done.stderr), (0, "", ""))
            path = os.path.join(room, "callers.py")
            lines = HEAD.splitlines() + [line for line, _ in WRONG] + RIGHT.splitlines()
            with open(path, "w", encoding="utf-8") as file:
                file.write("\n".join(lines) + "\n")
            done = self.run_mypy(room, path)
        told = {}
        for number, words in re.findall(r"callers\.py:(\d+): (?:error|note): (.*)", done.stdout):
            told.setdefault(lines[int(number) - 1], []).append(words)
        for line, word in WRONG:
            with self.subTest(line):
                self.assertIn(word, " ".join(told.pop(line, [])))
        self.assertEqual(told, {})
