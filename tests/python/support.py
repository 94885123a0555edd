"""What the tests of the Python package share: where its things are, and graphs made by chance."""
import importlib
import os
import random
import unittest

HERE = os.path.dirname(os.path.abspath(__file__))
TOP = os.path.dirname(os.path.dirname(HERE))
KINDS = (
    "perfect",
    "match",
    "bmatch",
    "capmatch",
    "ffactor",
    "tjoin",
    "postman",
    "path",
    "interval",
    "oddpath",
    "evenpath",
    "bottleneck",
    "gallai",
)
PATHS = ("path", "oddpath", "evenpath")

# Two triangles joined by a heavy edge: the best perfect matching needs it, since each triangle is
# an odd set.
TRIANGLES = [
    ("a", "b", 1),
    ("b", "c", 1),
    ("a", "c", 1),
    ("d", "e", 1),
    ("e", "f", 1),
    ("d", "f", 1),
    ("c", "d", 10),
]
STAR = [("hub", "x", 1), ("hub", "y", 1), ("hub", "z", 1)]


def wanted(name):
    """The module, or a test that is skipped where it isn't installed."""
    try:
        return importlib.import_module(name)
    except ImportError:
        raise unittest.SkipTest("%s isn't installed" % name) from None


class StandIn:
    """In place of a program or a library: notes what it is asked, and answers the same each
    time."""

    def __init__(self, status=0, output=b"s OPTIMAL perfect 1\nx 1 1\n"):
        self.status, self.output, self.asked = status, output, []

    def run(self, task, kind, text, timeout=None, running=None):
        self.asked.append((task, kind, text, timeout))
        return self.status, self.output


def library_or_skip():
    """The path of the shared object, or a test that is skipped where it isn't built."""
    import blossom
    from blossom.library import find_library

    try:
        return find_library()
    except blossom.SolverError:
        raise unittest.SkipTest("the shared object isn't built (capi/build.sh)") from None


def made(chance, kind):
    """A small multigraph by chance, of which half have loops, with words for its kind: its edges
    (u, v, weight, capacity) and the words of `instance`."""
    nodes = ["n%d" % number for number in range(chance.randint(2, 6))]
    least, loops = 0 if kind in ("postman", *PATHS) else -9, chance.choice((0, 0.3))
    ends = [
        [chance.choice(nodes)] * 2 if chance.random() < loops else chance.sample(nodes, 2)
        for _ in range(chance.randint(1, 9))
    ]
    edges = [(*pair, chance.randint(least, 9), chance.choice((None, 1, 2))) for pair in ends]
    words = {"nodes": nodes}
    if kind in ("bmatch", "capmatch", "ffactor"):
        values = dict.fromkeys(nodes, 0)
        for edge in chance.sample(
            edges, (len(edges) + 1) // 2
        ):  # the degrees of some edges, so that many have an answer
            values[edge[0]] += 1
            values[edge[1]] += 1
        if chance.random() < 0.4:
            values[chance.choice(nodes)] += chance.choice((1, 2))
        words["degrees"] = values
    elif kind == "tjoin":
        words["terminals"] = chance.sample(nodes, 2 * chance.randint(0, len(nodes) // 2))
    elif kind in PATHS:
        words["source"], words["target"] = chance.sample(nodes, 2)
    elif kind == "interval":
        words.update(bounds(chance, nodes))
    elif kind in ("perfect", "bottleneck") and len(nodes) % 2:
        words["nodes"] = nodes + ["one more"]
        edges.append((nodes[0], "one more", 3, None))
    return edges, words


def bounds(chance, nodes):
    """Bounds of nodes by chance: a lower one of some, and an upper one of all, or of none where
    edges are used once."""
    lower = {node: chance.randint(0, 2) for node in nodes if chance.random() < 0.7}
    if chance.random() < 0.4:
        return {"lower": lower, "default_capacity": 1}
    return {
        "lower": lower,
        "upper": {node: lower.get(node, 0) + chance.randint(0, 2) for node in nodes},
    }


def instances(kind, count, seed=1):
    """So many of these."""
    chance = random.Random("%s %d" % (kind, seed))
    return [made(chance, kind) for _ in range(count)]
