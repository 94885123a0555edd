"""Made instances for the benches of the solver, by family. Each call answers an instance as
bytes; weights are whole numbers."""
import random


def text(n, edges):
    return (
        "\n".join(["p edge %d %d" % (n, len(edges))] + ["e %d %d %d" % edge for edge in edges])
        + "\n"
    ).encode()


def weights(draw, most):
    return lambda u, v: draw.randint(-most, most) if most else 0


def random_graph(n, m, most, seed=1):
    """A perfect matching of the vertices in an order that was drawn, and random edges besides."""
    draw = random.Random(seed)
    weigh = weights(draw, most)
    order = draw.sample(range(1, n + 1), n)
    pairs = list(zip(order[::2], order[1::2]))
    while len(pairs) < m:
        pairs.append(tuple(draw.sample(range(1, n + 1), 2)))
    draw.shuffle(pairs)
    return text(n, [(u, v, weigh(u, v)) for u, v in pairs])


def path_and_more(n, m, most, state=7):
    """A path through all vertices and edges between vertices that a linear congruential
    generator draws, with weights to `most` either way."""

    def draw(sides):
        nonlocal state
        state = (state * 6364136223846793005 + 1442695040888963407) % 2**64
        return (state >> 33) % sides

    edges = []
    for i in range(1, m + 1):
        u, v = i, i + 1
        if i >= n:
            u, v = 1 + draw(n), 1 + draw(n - 1)
            v += v >= u
        edges.append((u, v, draw(2 * most + 1) - most))
    return text(n, edges)


def chain_of_triangles(n, most, seed=1):
    """Triangles in a row, an even number of them, each joined to the next."""
    draw = random.Random(seed)
    weigh = weights(draw, most)
    count = n // 6 * 2
    pairs = []
    for k in range(count):
        a = 3 * k + 1
        pairs += [(a, a + 1), (a + 1, a + 2), (a, a + 2)]
        if k + 1 < count:
            pairs.append((a + 2, a + 3))
    return text(3 * count, [(u, v, weigh(u, v)) for u, v in pairs])


def nearest_neighbours(n, near, seed=1):
    """Points of a square, each joined to those nearest to it, and a path through all of them so
    that a perfect matching exists; edges weigh their length."""
    draw = random.Random(seed)
    points = sorted((draw.randint(0, 10**6), draw.randint(0, 10**6)) for _ in range(n))

    return text(n, near_pairs(points, near))


def without_matching(n, m, most, seed=1):
    """A random graph on more than half of the vertices, the others joined to few: no perfect
    matching."""
    draw = random.Random(seed)
    weigh = weights(draw, most)
    few = n // 2 - 1
    pairs = []
    for v in range(few + 1, n + 1):
        pairs.append((v, draw.randint(1, few)))
    while len(pairs) < m:
        u, v = draw.randint(1, few), draw.randint(1, n)
        if u != v:
            pairs.append((u, v))
    return text(n, [(u, v, weigh(u, v)) for u, v in pairs])


def nested_sets(n, most, seed=1):
    """Odd sets within odd sets: vertices in a row, each joined to the two before it by edges
    that weigh more the farther out they are."""
    draw = random.Random(seed)
    pairs = [(k, k - 1, most // n * k + draw.randint(0, 3)) for k in range(2, n + 1)]
    pairs += [(k, k - 2, most // n * k + draw.randint(0, 3)) for k in range(3, n + 1)]
    return text(n, pairs)


def two_nests(sets, most, seed=1):
    """Two chains of odd sets, each set within the next, so many in all, around the two ends of
    one heavy edge, which every perfect matching has: an odd row of vertices for each, each
    vertex joined to the two before it by edges that weigh more the farther out they are."""
    draw = random.Random(seed)
    row = sets // 2 * 2 + 1
    step = most // (4 * sets)
    pairs = [(1, row + 1, most)]
    for start in (0, row):
        pairs += [
            (start + k, start + k - back, step * k + draw.randint(0, 3))
            for back in (1, 2)
            for k in range(back + 1, row + 1)
        ]
    return text(2 * row, pairs)


def odd_circuit(n):
    """A circuit of an odd number of vertices, in an order that was drawn: some greatest matching
    misses each."""
    order = list(range(1, n + 1))
    random.Random(1).shuffle(order)
    return text(n, [(u, v, 1) for u, v in zip(order, order[1:] + order[:1])])


def nested_triangles(n):
    """A triangle, and then two vertices more at a time, joined to each other and each to one of
    the two before: all of an odd number of vertices, each set of them within the next a blossom."""
    pairs = [(1, 2, 1), (2, 3, 1), (1, 3, 1)]
    for v in range(4, n, 2):
        pairs += [(v - 2, v, 1), (v, v + 1, 1), (v + 1, v - 1, 1)]
    return text(n, pairs)


def valued(n, pairs, most_count, most_weight, capacities, seed=1):
    """An instance whose values are the degrees of counts that were drawn, so that it has a
    feasible answer."""
    draw = random.Random(seed)
    values, lines = [0] * (n + 1), []
    for _ in range(pairs):
        u, v = draw.sample(range(1, n + 1), 2)
        count = draw.randint(0, most_count)
        values[u] += count
        values[v] += count
        lines.append(
            "e %d %d %d" % (u, v, draw.randint(0, most_weight))
            + (" %d" % draw.randint(count, most_count) if capacities else "")
        )
    head = ["p edge %d %d" % (n, pairs)] + ["n %d %d" % (v, values[v]) for v in range(1, n + 1)]
    return ("\n".join(head + lines) + "\n").encode()


def from_zero(n, m, most, seed=1):
    """A path through all vertices and more edges, no weight below 0."""
    draw = random.Random(seed)
    pairs = [(v, v + 1) for v in range(1, n)] + [
        tuple(draw.sample(range(1, n + 1), 2)) for _ in range(m - n + 1)
    ]
    return text(n, [(u, v, draw.randint(0, most)) for u, v in pairs])


def between(n, rows, bounds):
    """An instance of degrees between two bounds: rows of edges, and the bounds of each vertex."""
    lines = ["p edge %d %d" % (n, len(rows))] + ["e " + " ".join(map(str, row)) for row in rows]
    lines += ["n %d %d %d" % (v, *bounds[v]) for v in range(1, n + 1)]
    return ("\n".join(lines) + "\n").encode()


def edge_cover(n, m, most, seed=1):
    """A random graph whose vertices are to be covered, each edge used at most once."""
    draw = random.Random(seed)
    pairs = [(v, v % n + 1) for v in range(1, n + 1)]
    pairs += [tuple(draw.sample(range(1, n + 1), 2)) for _ in range(m - n)]
    degree = {v: sum(v in pair for pair in pairs) for v in range(1, n + 1)}
    return between(
        n, [(u, v, draw.randint(0, most), 1) for u, v in pairs], {v: (1, degree[v]) for v in degree}
    )


def between_in_grid(side, low, high, most, seed=1):
    """A grid, each vertex of a degree between two bounds, edges used any number of times."""
    draw = random.Random(seed)
    at = lambda row, column: row * side + column + 1
    pairs = [
        (at(row, column), at(row, column + 1)) for row in range(side) for column in range(side - 1)
    ]
    pairs += [
        (at(row, column), at(row + 1, column)) for row in range(side - 1) for column in range(side)
    ]
    rows = [(u, v, draw.randint(-most, most)) for u, v in pairs]
    return between(side * side, rows, {v: (low, high) for v in range(1, side * side + 1)})


def between_in_complete(n, most, seed=1):
    """A complete graph, each vertex of any degree from 1 on, each edge used at most once."""
    draw = random.Random(seed)
    rows = [
        (u, v, draw.randint(-most, most), 1) for u in range(1, n + 1) for v in range(u + 1, n + 1)
    ]
    return between(n, rows, {v: (1, n - 1) for v in range(1, n + 1)})


def between_in_star(leaves, most, seed=1):
    """A star whose centre may be met as often as there are leaves: the worst that is known for
    degrees between bounds."""
    draw = random.Random(seed)
    rows = [(1, v, draw.randint(-most, most)) for v in range(2, leaves + 2)]
    return between(leaves + 1, rows, {1: (1, leaves), **{v: (0, 1) for v in range(2, leaves + 2)}})


def grid(rows, columns, most, seed=1):
    """Crossings and streets: each crossing joined to the next in its row and in its column, no
    weight below 0."""
    draw = random.Random(seed)
    at = lambda row, column: row * columns + column + 1
    pairs = [
        (at(row, column), at(row, column + 1))
        for row in range(rows)
        for column in range(columns - 1)
    ]
    pairs += [
        (at(row, column), at(row + 1, column))
        for row in range(rows - 1)
        for column in range(columns)
    ]
    return text(rows * columns, [(u, v, draw.randint(0, most)) for u, v in pairs])


def wheel(spokes, most, seed=1):
    """A circuit, each vertex of it joined to one more, no weight below 0."""
    draw = random.Random(seed)
    pairs = [(v, v % spokes + 1) for v in range(1, spokes + 1)] + [
        (v, spokes + 1) for v in range(1, spokes + 1)
    ]
    return text(spokes + 1, [(u, v, draw.randint(0, most)) for u, v in pairs])


def ends(given, n):
    """The instance with odd values at its first and its last vertex."""
    return given + b"n 1 1\nn %d 1\n" % n


def points_of_value(n, near, value, times, seed=1):
    """The points of a square and the edges between neighbours, each point with this value; edges
    weigh so many times their length."""
    draw = random.Random(seed)
    points = sorted((draw.randint(0, 10**6), draw.randint(0, 10**6)) for _ in range(n))
    given = text(n, [(u, v, length * times // 10) for u, v, length in near_pairs(points, near)])
    return given + "".join("n %d %d\n" % (v, value) for v in range(1, n + 1)).encode()


def clusters(n, near, seed=1):
    """Points in clusters of some forty, each joined to those nearest to it, and a path through
    all of them."""
    draw = random.Random(seed)
    middles = [(draw.randint(0, 10**6), draw.randint(0, 10**6)) for _ in range(max(1, n // 40))]
    points = sorted(
        (x + draw.randint(-9000, 9000), y + draw.randint(-9000, 9000))
        for x, y in draw.choices(middles, k=n)
    )
    return text(n, near_pairs(points, near))


def near_pairs(points, near):
    """Edges from each point to those nearest to it among its neighbours in a row, and between
    neighbours; they weigh their length."""
    n = len(points)

    def length(a, b):
        return round(
            ((points[a][0] - points[b][0]) ** 2 + (points[a][1] - points[b][1]) ** 2) ** 0.5
        )

    pairs = {(k, k + 1) for k in range(n - 1)}
    for a in range(n):
        close = sorted(
            (b for b in range(max(0, a - 300), min(n, a + 300)) if b != a),
            key=lambda b: length(a, b),
        )
        pairs |= {(min(a, b), max(a, b)) for b in close[:near]}
    return [(a + 1, b + 1, length(a, b)) for a, b in sorted(pairs)]


def complete(n, weigh, seed=1):
    """All pairs of n vertices, weighed by a function of the two numbers and a generator."""
    draw = random.Random(seed)
    return text(
        n, [(u, v, weigh(u, v, draw)) for u in range(1, n + 1) for v in range(u + 1, n + 1)]
    )


def complete_euclidean(n, seed=1):
    draw = random.Random(seed)
    points = [(draw.randint(0, 10**6), draw.randint(0, 10**6)) for _ in range(n)]
    return complete(
        n,
        lambda u, v, _: round(
            (
                (points[u - 1][0] - points[v - 1][0]) ** 2
                + (points[u - 1][1] - points[v - 1][1]) ** 2
            )
            ** 0.5
        ),
    )


def triangulated_grid(rows, columns, most, seed=1):
    """A grid with one diagonal in each square."""
    draw = random.Random(seed)
    at = lambda row, column: row * columns + column + 1
    pairs = [(at(r, c), at(r, c + 1)) for r in range(rows) for c in range(columns - 1)]
    pairs += [(at(r, c), at(r + 1, c)) for r in range(rows - 1) for c in range(columns)]
    pairs += [(at(r, c), at(r + 1, c + 1)) for r in range(rows - 1) for c in range(columns - 1)]
    return text(rows * columns, [(u, v, draw.randint(0, most)) for u, v in pairs])


def toric_grid(side, terminals, most, seed=1):
    """A grid whose rows and columns close to circuits, with a few vertices of value 1, an even
    number: as decoders ask."""
    draw = random.Random(seed)
    at = lambda row, column: row % side * side + column % side + 1
    pairs = [(at(r, c), at(r, c + 1)) for r in range(side) for c in range(side)] + [
        (at(r, c), at(r + 1, c)) for r in range(side) for c in range(side)
    ]
    given = text(side * side, [(u, v, draw.randint(1, most)) for u, v in pairs])
    return given + b"".join(
        b"n %d 1\n" % v for v in sorted(draw.sample(range(1, side * side + 1), terminals))
    )
