"""Each kind at its limits, by both engines: 4,096 nodes, 65,536 edges, certificate graphs of 16,384
vertices or 1,048,576 edges, and the longest answers."""
import unittest

import blossom
from support import library_or_skip

NODES, EDGES = 4_096, 65_536


def ring(nodes, reach, weight=lambda edge: edge % 7):
    """Each of so many nodes joined to the next ones around a ring: columns of edges."""
    pairs = [(u, (u + step) % nodes) for step in range(1, reach + 1) for u in range(nodes)]
    weights = [weight(edge) for edge in range(len(pairs))]
    return {"u": [u for u, _ in pairs], "v": [v for _, v in pairs], "weight": weights}


def with_capacities(columns, usable):
    """The same, of which the first edges may be used once and the others not at all."""
    count = len(columns["u"])
    return {**columns, "capacity": [1] * usable + [0] * (count - usable)}


def odd_ring(nodes):
    """A ring of an odd number of nodes: each node is missed by some maximum matching."""
    return ring(nodes, 1, lambda edge: 1)


#: For each kind a graph at its limits, with words for its instance, and how many duals its answer
#: has: one for each vertex of the certificate graph.
AT_LIMITS = (
    ("perfect", ring(NODES, 16), {}, 4_096),
    ("match", ring(NODES, 16), {}, 8_192),
    # (a certificate graph of 16,384 vertices and 1,048,576 edges)
    ("bmatch", ring(NODES, 16), {"degrees": dict.fromkeys(range(NODES), 4)}, 16_384),
    (
        "capmatch",
        with_capacities(ring(NODES, 16), 6_144),
        {"degrees": dict.fromkeys(range(NODES), 1)},
        16_384,
    ),
    ("ffactor", ring(NODES, 1), {"degrees": dict.fromkeys(range(NODES), 2)}, 16_384),
    ("tjoin", ring(NODES, 2), {"terminals": []}, 16_384),
    ("tjoin", ring(4_000, 2), {"terminals": range(0, 4_000, 40)}, 16_100),
    ("postman", ring(NODES, 2), {}, 16_384),
    ("path", ring(4_090, 2), {"source": 0, "target": 2_045}, 16_362),
    ("interval", with_capacities(ring(NODES, 16), 2_048), {"upper": 1}, 16_384),
    ("oddpath", ring(NODES, 16), {"source": 0, "target": 2_048}, 8_190),
    ("evenpath", ring(NODES, 16), {"source": 0, "target": 2_048}, 8_190),
    ("bottleneck", ring(NODES, 16), {}, 0),
    ("gallai", ring(NODES, 16), {}, 0),
    ("gallai", odd_ring(1_701), {}, 0),
)


class AtLimits(unittest.TestCase):
    def test_both_engines_give_the_same_answer(self):
        library_or_skip()
        self.assertEqual({row[0] for row in AT_LIMITS}, set(blossom.KINDS))
        for row in AT_LIMITS:
            with self.subTest(kind=row[0]):
                self.same(*row)

    def same(self, kind, columns, words, duals):
        of = blossom.Instance.from_graph(columns, kind, **words)
        by_process = blossom.solve(of, kind, engine="process")
        by_library = blossom.solve(of, kind, engine="library")
        self.assertEqual(len(by_library.certificate.document.duals), duals)
        self.assertEqual(by_library.weight, by_process.weight)
        self.assertEqual(by_library.certificate.text, by_process.certificate.text)
        self.assertTrue(by_library.check())
        self.assertTrue(by_process.check())

    def test_the_longest_answer(self):
        """A path for each of 4,095 nodes: 40 MB of text, and 8 million numbers."""
        of = blossom.Instance.from_graph(odd_ring(NODES - 1), "gallai")
        library = blossom.Library(library_or_skip())
        told = blossom.Process().run("solve", "gallai", of.text)
        self.assertEqual((told[0], len(told[1]) >> 20), (0, 37))
        self.assertEqual(library.run("solve", "gallai", of.text), told)
        status, document = library.solve("solve", of)
        self.assertEqual((status, len(document.paths)), (0, NODES - 1))
        self.assertEqual(max(map(len, document.paths.values())), NODES - 2)
