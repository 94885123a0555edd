"""Dense instances made by chance, and what they cost, by plain arithmetic."""
import itertools
import math
import random
from decimal import Decimal
from fractions import Fraction

METRICS = ("euclidean", "manhattan", "chebyshev")


def exact(number):
    return Fraction(Decimal(str(number)))


def distance(one, other, metric, scale):
    """The nearest integer to the distance of two points, times the scale; halves are rounded up."""
    across = [abs(exact(a) - exact(b)) * scale for a, b in zip(one, other)]
    if metric == "euclidean":
        square = 4 * sum(a * a for a in across)
        return (math.isqrt(square.numerator // square.denominator) + 1) // 2
    total = sum(across) if metric == "manhattan" else max(across, default=0)
    return (math.floor(2 * total) + 1) // 2


def points(chance, count, style):
    """So many points: in a small grid, so that many distances are equal; each of few places, so
    that many are the same point; on a line; decimals; doubles; in space."""
    if style == "grid":
        return [(chance.randint(0, 9), chance.randint(0, 9)) for _ in range(count)]
    if style == "same":
        places = [(chance.randint(0, 99), chance.randint(0, 99)) for _ in range(3)]
        return [chance.choice(places) for _ in range(count)]
    if style == "line":
        return [(3 * step, 4 * step) for step in chance.sample(range(10 * count + 1), count)]
    if style == "decimals":
        return [(chance.randint(0, 300) / 10, chance.randint(0, 300) / 10) for _ in range(count)]
    if style == "space":
        return [tuple(chance.randint(0, 30) for _ in range(3)) for _ in range(count)]
    return [(chance.random(), chance.random()) for _ in range(count)]


STYLES = ("grid", "same", "line", "decimals", "space", "doubles")


def matrix(chance, count, style):
    """A symmetric matrix of costs, with None for missing pairs: of few different numbers, of many,
    with negative ones, or with many missing pairs."""
    most = {"ties": 3, "many": 10**9}.get(style, 50)
    least = -20 if style == "negative" else 0
    missing = {"sparse": 0.7, "negative": 0.2}.get(style, 0)
    rows = [[None] * count for _ in range(count)]
    for u, v in itertools.combinations(range(count), 2):
        if chance.random() >= missing:
            rows[u][v] = rows[v][u] = chance.randint(least, most)
    return rows


MATRICES = ("ties", "many", "negative", "sparse")


def pairs_of_points(given, metric, scale):
    """All pairs of points as edges."""
    return [
        (u, v, distance(given[u], given[v], metric, scale))
        for u, v in itertools.combinations(range(len(given)), 2)
    ]


def pairs_of_matrix(rows):
    """All pairs of a matrix as edges."""
    return [
        (u, v, rows[u][v])
        for u, v in itertools.combinations(range(len(rows)), 2)
        if rows[u][v] is not None
    ]


def seeded(name):
    return random.Random("dense " + name)
