"""networkx's functions by blossom."""
import importlib.util
import os
import random
import subprocess
import sys
import tempfile
import unittest
import zipfile

import blossom
from support import HERE, TOP, wanted


def version(networkx):
    return tuple(int(part) for part in networkx.__version__.split(".")[:2])


def installed_in(room):
    """The environment of a process that finds the package installed in this folder, as networkx
    finds backends by what is installed."""
    sys.path.insert(0, os.path.join(TOP, "python"))
    import build_backend

    with zipfile.ZipFile(os.path.join(room, build_backend.build_wheel(room))) as wheel:
        wheel.extractall(room)  # as pip would
    libraries = [
        path
        for path in os.environ["PYTHONPATH"].split(os.pathsep)
        if path != os.path.join(TOP, "python")
    ]
    return dict(os.environ, PYTHONPATH=os.pathsep.join([room, *libraries]))


class Backend(unittest.TestCase):
    def setUp(self):
        self.networkx = wanted("networkx")
        if version(self.networkx) < (3, 2):
            self.skipTest("networkx %s has no backends" % self.networkx.__version__)

    def test_its_own_tests_pass(self):
        if importlib.util.find_spec("networkx.algorithms.tests.test_matching") is None:
            self.skipTest("networkx is installed without its tests")
        with tempfile.TemporaryDirectory() as room:
            done = subprocess.run(
                [sys.executable, os.path.join(HERE, "networkx_tests.py")],
                env=installed_in(room),
                capture_output=True,
                text=True,
            )
        self.assertRegex(
            done.stdout, r"^\d+ tests of networkx, \d+ calls of the backend\n$", done.stderr
        )

    def test_made_graphs_have_the_weights_that_networkx_finds(self):
        from blossom import networkx_backend

        chance = random.Random(5)
        for _ in range(40):
            graph = self.networkx.gnp_random_graph(
                chance.randint(1, 9), 0.4, seed=chance.randint(0, 10**6)
            )
            if chance.randrange(2):
                graph.add_edge(0, 0)
            for u, v in graph.edges:
                graph[u][v]["weight"] = chance.randint(-5, 9)
            for most in (False, True):
                found = networkx_backend.max_weight_matching(graph, maxcardinality=most)
                self.same(
                    graph,
                    found,
                    self.networkx.max_weight_matching(graph, maxcardinality=most),
                    most,
                )
            self.same(
                graph,
                networkx_backend.min_weight_matching(graph),
                self.networkx.min_weight_matching(graph),
                True,
            )

    def same(self, graph, found, known, most):
        self.assertTrue(self.networkx.is_matching(graph, found))
        weights = [sum(graph[u][v]["weight"] for u, v in edges) for edges in (found, known)]
        self.assertEqual(weights[0], weights[1])
        self.assertTrue(not most or len(found) == len(known))

    def test_networkx_goes_on_by_itself_where_a_graph_is_too_large(self):
        if version(self.networkx) < (3, 4):
            self.skipTest("networkx %s doesn't go on by itself" % self.networkx.__version__)
        code = (
            "import networkx, blossom\n"
            "from blossom import networkx_backend\n"
            "called = []\n"
            "def counted(function):\n"
            "    def call(*words, **how):\n"
            "        called.append(function.__name__)\n"
            "        return function(*words, **how)\n"
            "    return call\n"
            "for name in ('max_weight_matching', 'min_weight_matching'):\n"
            "    setattr(networkx_backend, name, counted(getattr(networkx_backend, name)))\n"
            "path, star = networkx.path_graph(41), networkx.star_graph(1500)\n"
            "with networkx.config(backend_priority=['blossom']):\n"
            "    networkx_backend.MOST_NODES = 20\n"
            "    found = networkx.max_weight_matching(path.subgraph(range(21)))\n"
            "    print(len(found), len(called))\n"
            "    print(len(networkx.min_weight_matching(path)), len(called))\n"
            "    networkx_backend.MOST_NODES = 4096\n"
            "    print(len(networkx.max_weight_matching(star, True)), len(called))\n"
            "try:\n"
            "    networkx.max_weight_matching(star, True, backend='blossom')\n"
            "except NotImplementedError as told:\n"
            "    told = told if isinstance(told, blossom.LimitExceeded) else told.__cause__\n"
            "    print(type(told).__name__, str(told)[:50])\n"
        )
        with tempfile.TemporaryDirectory() as room:
            done = subprocess.run(
                [sys.executable, "-c", code], env=installed_in(room), capture_output=True, text=True
            )
        self.assertEqual(
            done.stdout,
            "10 0\n20 0\n1 1\nTooLarge graph too large: a maximum matching leaves 1499 of\n",
            done.stderr,
        )


class Limits(unittest.TestCase):
    def test_the_backend_knows_what_is_too_large(self):
        from blossom.networkx_backend import can_run, should_run

        class Sized:
            def __init__(self, nodes, edges):
                self.number_of_nodes, self.number_of_edges = lambda: nodes, lambda: edges

        for name, size, words, taken in (
            ("max_weight_matching", (4096, 65536), {}, True),
            ("max_weight_matching", (4097, 1), {}, False),
            ("max_weight_matching", (4096, 65537), {}, False),
            ("max_weight_matching", (4096, 9), {"maxcardinality": True}, True),
            ("max_weight_matching", (4097, 9), {"maxcardinality": True}, False),
            ("min_weight_matching", (4096, 65536), {}, True),
            ("min_weight_matching", (4097, 9), {}, False),
            ("min_weight_matching", (9, 65537), {}, False),
            ("maximal_matching", (2, 1), {}, False),
        ):
            for call in (can_run, should_run):
                with self.subTest(name=name, size=size, words=words):
                    self.assertEqual(call(name, (Sized(*size),), words) is True, taken)
                    self.assertEqual(call(name, (), {"G": Sized(*size), **words}) is True, taken)
        self.assertIs(can_run("max_weight_matching", (Sized(4096, 9), True), {}), True)
        self.assertEqual(
            can_run("max_weight_matching", (Sized(4097, 9), False), {}),
            "graph too large: 4097 nodes, 9 edges; the limits are 4096 and 65536",
        )

    def test_answers_are_as_networkx_has_them(self):
        from blossom.networkx_backend import convert_to_nx

        found = {("a", "b")}
        self.assertIs(convert_to_nx(found, name="max_weight_matching"), found)

    def test_what_is_too_large_when_it_is_run_is_seen_by_networkx(self):
        from blossom.networkx_backend import TooLarge, within_limits

        with self.assertRaises(NotImplementedError) as told, within_limits():
            raise blossom.LimitExceeded("too large", 5, 6)
        self.assertIsInstance(told.exception, blossom.LimitExceeded)
        self.assertEqual(
            (type(told.exception), str(told.exception), told.exception.edges),
            (TooLarge, "too large", 6),
        )


class Without(unittest.TestCase):
    def test_what_networkx_shows_of_the_backend(self):
        from blossom import networkx_backend

        shown = networkx_backend.info()["functions"]
        self.assertEqual(set(shown), {"max_weight_matching", "min_weight_matching"})
        for name, weight in (("max_weight_matching", "greatest"), ("min_weight_matching", "least")):
            self.assertIn("of %s weight" % weight, shown[name]["additional_docs"])
            self.assertTrue(callable(getattr(networkx_backend, name)))

    def test_a_matching_of_most_edges_needs_no_networkx(self):
        from blossom.networkx_backend import most_edges

        self.assertEqual(most_edges([1, 2, 3, 4], [(1, 2, 5), (2, 3, 1), (2, 4, 9)]), {(2, 3)})
        self.assertEqual(most_edges([], []), set())
        self.assertEqual(most_edges(["a"], []), set())
        self.assertEqual(blossom.KINDS[0], "perfect")
