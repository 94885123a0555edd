"""The jobs for which people pick a special algorithm: instances, the peer that answers each, and
the times that are wanted.

A goal is a time of `solve` beside the peer's, both of one machine, in milliseconds or for shots in
microseconds: only their ratio counts elsewhere."""
import random
from typing import Callable, NamedTuple, Optional

import families

BIG, FINE = 10**9, 1000


class Job(NamedTuple):
    """A row of the table: the instance's name, its kind, what makes it, the program that answers
    it and its words, and the wanted ratios, without certificate and, if the table has it, with."""

    name: str
    kind: str
    make: Callable[[], bytes]
    peer: tuple
    most: float
    most_in_full: Optional[float] = None


def with_values(given, values):
    return given + "".join("n %d %d\n" % row for row in values).encode()


def terminals(given, n, count, seed=2):
    """The instance with so many terminals."""
    chosen = sorted(random.Random(seed).sample(range(1, n + 1), count))
    return with_values(given, [(v, 1) for v in chosen])


def sparse(n, m, seed=1):
    """Edges between pairs that were drawn; some vertices have none."""
    draw = random.Random(seed)
    return families.text(n, [(*draw.sample(range(1, n + 1), 2), 1) for _ in range(m)])


def crossed_grid(side, most, seed=1):
    """A grid with one of the two diagonals in each square, so that about half of the degrees are
    odd."""
    draw = random.Random(seed)
    at = lambda row, column: row * side + column + 1
    pairs = [(at(r, c), at(r, c + 1)) for r in range(side) for c in range(side - 1)]
    pairs += [(at(r, c), at(r + 1, c)) for r in range(side - 1) for c in range(side)]
    for r in range(side - 1):
        for c in range(side - 1):
            diagonals = (at(r, c), at(r + 1, c + 1)), (at(r + 1, c), at(r, c + 1))
            pairs.append(draw.choice(diagonals))
    return families.text(side * side, [(u, v, draw.randint(0, most)) for u, v in pairs])


def code_pairs(distance):
    """The edges of a planar code: one for each of its d^2 + (d - 1)^2 qubits. A row has a vertex of
    its own at each end, where its edges end at the boundary."""
    at = lambda row, column: row * (distance + 1) + column + 1
    along = [(at(r, c), at(r, c + 1)) for r in range(distance) for c in range(distance)]
    return along + [
        (at(r, c), at(r + 1, c)) for r in range(distance - 1) for c in range(1, distance)
    ]


def fired(pairs, rate, draw):
    """The ends of odd degree of errors at this rate; there are some."""
    odd = set()
    while not odd:
        for u, v in pairs:
            if draw.random() < rate:
                odd ^= {u, v}
    return sorted(odd)


def code_graph(distance, draw):
    pairs = code_pairs(distance)
    edges = [(u, v, draw.randint(1, FINE)) for u, v in pairs]
    return pairs, families.text(distance * (distance + 1), edges)


def code(distance, rate, seed=1):
    """A planar code, and the vertices where errors at this rate show."""
    draw = random.Random(seed)
    pairs, given = code_graph(distance, draw)
    return with_values(given, [(v, 1) for v in fired(pairs, rate, draw)])


def shots(distance, rate, count, seed=1):
    """A planar code and so many sets of terminals, each a line `t`."""
    draw = random.Random(seed)
    pairs, given = code_graph(distance, draw)
    rows = ["t " + " ".join(map(str, fired(pairs, rate, draw))) for _ in range(count)]
    return given + "".join(row + "\n" for row in rows).encode()


def path(side, zeros, seed=1):
    """A grid whose first and last vertex are the ends; half of its weights are 0 if wanted."""
    draw = random.Random(seed)
    lines = families.grid(side, side, BIG).decode().splitlines()
    if zeros:
        lines = [
            " ".join(line.split()[:3] + ["0"]) if line[0] == "e" and draw.randrange(2) else line
            for line in lines
        ]
    return families.ends("".join(line + "\n" for line in lines).encode(), side * side)


def two_coloured(side, m, value, seed=1):
    """Two sides of so many vertices, each of this value. Some perfect matchings from side to side,
    so many as the value, are among the edges; the others are drawn."""
    draw, pairs = random.Random(seed), []
    for _ in range(value):
        others = draw.sample(range(side + 1, 2 * side + 1), side)
        pairs += list(zip(range(1, side + 1), others))
    while len(pairs) < m:
        pairs.append((draw.randint(1, side), draw.randint(side + 1, 2 * side)))
    draw.shuffle(pairs)
    given = families.text(2 * side, [(*draw.sample(p, 2), draw.randint(0, BIG)) for p in pairs])
    return with_values(given, [(v, value) for v in range(1, 2 * side + 1)])


def half_odd(given, n, seed=3):
    return terminals(given, n, n // 4 * 2, seed)


def tree(n, most, seed=1):
    """A tree in which each vertex hangs at an earlier one that was drawn."""
    draw = random.Random(seed)
    edges = [(draw.randint(1, v - 1), v, draw.randint(0, most)) for v in range(2, n + 1)]
    return families.text(n, edges)


def circuit(n):
    """A circuit of edges of weight 0."""
    return families.text(n, [(v, v % n + 1, 0) for v in range(1, n + 1)])


def star(n, most, seed=1):
    """A tree whose first vertex meets all others."""
    draw = random.Random(seed)
    return families.text(n, [(1, v, draw.randint(0, most)) for v in range(2, n + 1)])


def clique(n, most):
    return families.complete(n, lambda u, v, draw: draw.randint(0, most))


GALLAI, JOIN = ("lemon_gallai",), ("lemon_join",)
TOUR, HALVING = ("lemon_join", "postman"), ("lemon_bottleneck",)
TRANSPORT, FACTOR = ("lemon_transport",), ("lemon_transport", "ffactor")

JOBS = (
    Job(
        "decomposition of a triangulated grid, 3,969 vertices",
        "gallai",
        lambda: families.triangulated_grid(63, 63, 0),
        GALLAI,
        16 / 10,
        42 / 10,
    ),
    Job(
        "decomposition of a sparse graph, 4,095 vertices",
        "gallai",
        lambda: sparse(4095, 3 * 4095),
        GALLAI,
        18 / 13,
        22 / 13,
    ),
    Job(
        "decomposition of neighbours in a plane, 4,095 vertices",
        "gallai",
        lambda: families.nearest_neighbours(4095, 16),
        GALLAI,
        25 / 19,
        35 / 19,
    ),
    Job(
        "decomposition of a graph with a barrier, 4,096 vertices",
        "gallai",
        lambda: families.without_matching(4096, 65536, BIG),
        GALLAI,
        25 / 33,
        26 / 33,
    ),
    Job("tour of a clique", "postman", lambda: clique(70, BIG), TOUR, 7 / 9),
    Job("tour of a triangulated grid", "postman", lambda: crossed_grid(36, BIG), TOUR, 10 / 458),
    Job("tour of a grid", "postman", lambda: families.grid(45, 45, BIG), TOUR, 7 / 59),
    *(
        Job(
            "join in a grid, %s terminals" % format(count, ","),
            "tjoin",
            lambda count=count: terminals(families.grid(50, 50, FINE), 2500, count),
            JOIN,
            most,
        )
        for count, most in ((20, 7 / 10), (200, 11 / 86), (1000, 17 / 1555))
    ),
    Job("code of distance 41, 1 % of errors", "tjoin", lambda: code(41, 0.01), JOIN, 7 / 21),
    Job("code of distance 41, 5 % of errors", "tjoin", lambda: code(41, 0.05), JOIN, 8 / 102),
    Job("path in a grid", "path", lambda: path(50, False), ("lemon_path",), 6 / 5),
    Job(
        "path in a grid, half of the weights 0",
        "path",
        lambda: path(50, True),
        ("lemon_path",),
        7 / 6,
    ),
    Job("transport of 16 units", "bmatch", lambda: two_coloured(64, 1024, 16), TRANSPORT, 6 / 5),
    Job("transport of 4 units", "bmatch", lambda: two_coloured(512, 4096, 4), TRANSPORT, 8 / 6),
    Job("3-factor of two colours", "ffactor", lambda: two_coloured(300, 2400, 3), FACTOR, 8 / 5),
    Job(
        "bottleneck of a sparse graph",
        "bottleneck",
        lambda: families.random_graph(4096, 6 * 4096, BIG),
        HALVING,
        16 / 80,
    ),
    Job("bottleneck of a clique", "bottleneck", lambda: clique(360, BIG), HALVING, 20 / 44),
    Job(
        "bottleneck of neighbours in a plane",
        "bottleneck",
        lambda: families.nearest_neighbours(4096, 16),
        HALVING,
        100 / 97,
    ),
)

#: Shots through the library for C, all by one call: name, what makes the graph and its sets, and
#: the wanted ratio.
SHOTS = (
    ("shot of a code of 421 edges, 1 % of errors", lambda: shots(15, 0.01, 200), 45 / 196),
    ("shot of a code of 421 edges, 5 % of errors", lambda: shots(15, 0.05, 100), 125 / 1229),
    ("shot of a code of 3,281 edges, 1 % of errors", lambda: shots(41, 0.01, 40), 450 / 10295),
    ("shot of a code of 3,281 edges, 5 % of errors", lambda: shots(41, 0.05, 10), 1100 / 72399),
)

#: Joins where guessing an answer costs most before it is given up, or gains least.
WORST = (
    ("tree, half of 4,095 vertices odd", lambda: half_odd(tree(4095, BIG), 4095)),
    ("path, half of 4,095 vertices odd", lambda: half_odd(families.grid(1, 4095, BIG), 4095)),
    ("circuit of weights 0, half odd", lambda: half_odd(circuit(4095), 4095)),
    ("grid of weights 0, half odd", lambda: half_odd(families.grid(45, 45, 0), 2025)),
    ("star, 1,000 leaves odd", lambda: terminals(star(1001, BIG), 1001, 1000)),
)
