#!/usr/bin/env python3
"""Made instances of the jobs for which there are special algorithms: what `solve` states is what a
plain algorithm for the job finds, `check` accepts the document, and the solution without
certificate is one of that weight. Loops, parallel edges and edges of weight 0 are among them, and
negative weights where the kind takes them.

Usage: special.py PROGRAM [COUNT [SEED [PROCESSES]]], with COUNT instances of each job. The last
line is 'N passed, M failed'. A seed gives the same instances each time.

The plain algorithms are none of the program's: the kernel of a matrix for matchings of greatest
size (Tutte), all pairings of few terminals or leaves one by one for joins, and shortest augmenting
paths of Bellman and Ford for graphs of two colours."""
import functools
import heapq
import math
import multiprocessing
import os
import random
import sys

import fuzz
import plain_solver

COUNT, CHUNK = 500, 50
PRIME = 2**61 - 1
MOST_TERMINALS = 10


# ---- plain algorithms; an edge is (u, v, weight, capacity), and vertices count from 1


def kernel(n, pairs, chance):
    """A basis of the kernel of a random skew matrix of these pairs, modulo a prime: so many
    vertices as it has vectors are missed by each greatest matching, and a vertex is missed by some
    such matching if a vector isn't 0 there. This is wrong once in about 2^50 cases."""
    rows = [[0] * n for _ in range(n)]
    for u, v in pairs:
        if u != v:
            number = chance.randrange(1, PRIME)
            rows[u - 1][v - 1] += number
            rows[v - 1][u - 1] -= number
    lead = {}
    for column in range(n):
        place = next((r for r in range(len(lead), n) if rows[r][column] % PRIME), None)
        if place is not None:
            eliminate(rows, len(lead), place, column)
            lead[column] = len(lead)
    free = [column for column in range(n) if column not in lead]
    return [
        [-rows[lead[v]][f] % PRIME if v in lead else int(v == f) for v in range(n)] for f in free
    ]


def eliminate(rows, target, place, column):
    """Makes the row a unit in this column, at its target, and all other rows 0 there."""
    rows[target], rows[place] = rows[place], rows[target]
    inverse = pow(rows[target][column], -1, PRIME)
    pivot = rows[target] = [number * inverse % PRIME for number in rows[target]]
    for other, row in enumerate(rows):
        factor = row[column]
        if other != target and factor % PRIME:
            rows[other] = [(a - factor * b) % PRIME for a, b in zip(row, pivot)]


def distances(n, edges, start):
    """How far each vertex is, by absolute weights."""
    at = [[] for _ in range(n + 1)]
    for u, v, w, _ in edges:
        at[u].append((v, abs(w)))
        at[v].append((u, abs(w)))
    far, heap = [math.inf] * (n + 1), [(0, start)]
    while heap:
        length, v = heapq.heappop(heap)
        if far[v] == math.inf:
            far[v] = length
            for other, w in at[v]:
                heapq.heappush(heap, (length + w, other))
    return far


def turned(edges, odd):
    """The terminals that are left once all edges of negative weight are in a join."""
    left = set(odd)
    for u, v, w, _ in edges:
        left ^= {u} ^ {v} if w < 0 else set()
    return sorted(left)


def least_join(n, edges, odd):
    """The least weight of a join, or None: edges of negative weight are taken, and the rest is the
    best of all pairings."""
    left = turned(edges, odd)
    table = {v: distances(n, edges, v) for v in left}

    @functools.lru_cache(None)
    def best(rest):
        if not rest:
            return 0
        first, others = rest[0], rest[1:]
        return min(
            (
                table[first][other] + best(others[:place] + others[place + 1 :])
                for place, other in enumerate(others)
            ),
            default=math.inf,
        )

    weight = best(tuple(left)) + sum(min(edge[2], 0) for edge in edges)
    return None if weight == math.inf else weight


def is_connected(n, edges):
    """Whether walks join all edges."""
    if not edges:
        return True
    far = distances(n, edges, edges[0][0])
    return all(far[edge[0]] < math.inf for edge in edges)


class Flow:
    """Least costs by shortest augmenting paths, one at a time."""

    def __init__(self, vertices):
        self.n, self.arcs = vertices, []

    def add(self, u, v, room, cost):
        self.arcs += [[u, v, room, cost], [v, u, 0, -cost]]

    def path(self, source):
        """How far each vertex is, and the arc by which a shortest walk reaches it."""
        far, by, changed = [math.inf] * self.n, [None] * self.n, True
        far[source] = 0
        while changed:
            changed = False
            for place, (u, v, room, cost) in enumerate(self.arcs):
                if room and far[u] + cost < far[v]:
                    far[v], by[v], changed = far[u] + cost, place, True
        return far, by

    def push(self, by, source, sink):
        """As much as goes along this path."""
        way, v = [], sink
        while v != source:
            way.append(by[v])
            v = self.arcs[by[v]][0]
        most = min(self.arcs[place][2] for place in way)
        for place in way:
            self.arcs[place][2] -= most
            self.arcs[place ^ 1][2] += most
        return most

    def run(self, source, sink, wanted):
        """The least cost of so much, or None."""
        cost = 0
        while wanted:
            far, by = self.path(source)
            if far[sink] == math.inf:
                return None
            sent = self.push(by, source, sink)
            cost, wanted = cost + sent * far[sink], wanted - sent
        return cost


def least_transport(kind, side, edges, values):
    """The least weight for a graph of two colours, whose first side is the vertices up to this
    one, or None. A loop is one that no answer uses."""
    n = len(values)
    if sum(values[:side]) != sum(values[side:]):
        return None
    flow = Flow(n + 2)
    for v, value in enumerate(values, 1):
        flow.add(*((0, v) if v <= side else (v, n + 1)), value, 0)
    for u, v, w, capacity in edges:
        if u != v:
            unlimited = capacity is None or kind == "bmatch"
            room = 1 if kind == "ffactor" else sum(values) if unlimited else capacity
            flow.add(min(u, v), max(u, v), room, w)
    return flow.run(0, n + 1, sum(values[:side]))


# ---- made instances: (edges, values, the lines that are wanted first)


def weigher(chance, negative):
    """Draws weights: few values or many, and 0 often."""
    most = chance.choice((0, 1, 2, 9, 1000, 10**12))
    least = chance.choice((0, -most)) if negative else 0
    zeros = chance.choice((0, 0, 0.5))
    return lambda: 0 if chance.random() < zeros else chance.randint(least, most)


def shaped(chance):
    """The number of vertices, and the ends of edges: a grid, a wheel, a circuit, a tree and more
    edges, a planar code, or any ends."""
    shape = chance.randrange(6)
    if shape in (0, 1):
        rows, columns, first = chance.randint(1, 5), chance.randint(2, 7), shape
        at = lambda row, column: row * columns + column + 1
        pairs = [(at(r, c), at(r, c + 1)) for r in range(rows) for c in range(columns - 1)]
        inner = range(first, columns - first)
        pairs += [(at(r, c), at(r + 1, c)) for r in range(rows - 1) for c in inner]
        return rows * columns, pairs
    n = chance.choice((1, 2, 3, 5, 8, 13, 21, 34))
    circuit = [(v, v % n + 1) for v in range(1, n + 1)]
    if shape == 2:
        return n + 1, circuit + [(v, n + 1) for v in range(1, n + 1)]
    if shape == 3:
        return n, circuit
    ends = [(chance.randint(1, n), chance.randint(1, n)) for _ in range(chance.randint(0, 2 * n))]
    tree = [(chance.randint(1, v - 1), v) for v in range(2, n + 1)]
    return n, ends + tree if shape == 4 else ends


def shuffled(chance, n, pairs):
    """The same with other numbers, in another order, some twice, and with some loops."""
    order = [0] + chance.sample(range(1, n + 1), n)
    pairs = pairs + [pair for pair in pairs if chance.random() < chance.choice((0, 0.1))]
    pairs += [(v, v) for v in range(1, n + 1) if chance.random() < chance.choice((0, 0, 0.1))]
    chance.shuffle(pairs)
    return [tuple(chance.sample((order[u], order[v]), 2)) for u, v in pairs]


def weighed(chance, negative):
    """A graph of one of the shapes with weights."""
    n, pairs = shaped(chance)
    draw = weigher(chance, negative)
    return n, [(u, v, draw(), None) for u, v in shuffled(chance, n, pairs)]


def few(chance, make, terminals):
    """A graph with few enough terminals for all pairings."""
    while True:
        n, edges = make()
        odd = terminals(n, edges)
        if odd is not None and len(turned(edges, odd)) <= MOST_TERMINALS:
            return n, edges, odd


def valued(chance, n, odd):
    return [2 * chance.randint(0, 1) + (v in odd) for v in range(1, n + 1)]


def stated(kind, weight):
    return ["s INFEASIBLE " + kind if weight is None else "s OPTIMAL %s %d" % (kind, weight)]


def made_join(chance):
    def drawn(n, edges):
        count = chance.randint(0, min(n, MOST_TERMINALS))
        return chance.sample(range(1, n + 1), count - (count % 2 and chance.randrange(4) > 0))

    n, edges, odd = few(chance, lambda: weighed(chance, True), drawn)
    return edges, valued(chance, n, odd), stated("tjoin", least_join(n, edges, odd))


def made_tree_join(chance):
    """A tree and edges that weigh more than all of it, so that a least join is that of the tree:
    of the edge at a leaf after another, those with an odd number of terminals behind."""
    n = chance.choice((2, 5, 9, 17, 33, 49))
    draw = weigher(chance, False)
    near = chance.choice((1, 3, n))
    tree = [(chance.randint(max(1, v - near), v - 1), v, draw()) for v in range(2, n + 1)]
    odd = set(chance.sample(range(1, n + 1), chance.randint(0, n // 2) * 2))
    left, weight = set(odd), 0
    for u, v, w in reversed(tree):
        if v in left:
            left ^= {u, v}
            weight += w
    heavy = sum(w for _, _, w in tree) + 1
    extra = [(*chance.choices(range(1, n + 1), k=2), heavy) for _ in range(chance.randint(0, n))]
    # (a weight is at most 10^12, so heavy edges are left out if the tree weighs as much)
    edges = [(*row, None) for row in tree + (extra if heavy <= 10**12 else [])]
    chance.shuffle(edges)
    return edges, valued(chance, n, odd), stated("tjoin", weight)


def made_tour(chance):
    def uneven(n, edges):
        ends = [end for edge in edges for end in edge[:2]]
        return [v for v in range(1, n + 1) if ends.count(v) % 2]

    n, edges, odd = few(chance, lambda: weighed(chance, False), uneven)
    whole = is_connected(n, edges)
    weight = sum(edge[2] for edge in edges) + least_join(n, edges, odd) if whole else None
    return edges, [chance.randint(0, 3) for _ in range(n)], stated("postman", weight)


def made_path(chance):
    negative = chance.randrange(3) == 0

    def two(n, edges):
        small = len(turned(edges, [])) < MOST_TERMINALS - 1
        return chance.sample(range(1, n + 1), 2) if n > 1 and small else None

    n, edges, odd = few(chance, lambda: weighed(chance, negative), two)
    values = valued(chance, n, odd)
    if least_join(n, edges, []) < 0:
        return edges, values, ["s NONCONSERVATIVE path"]
    return edges, values, stated("path", least_join(n, edges, odd))


def made_transport(kind, chance):
    """A graph of two colours, half of them with an answer; its loops are of capacity 0 or at
    vertices whose value is 1 at most."""
    side, other = chance.randint(1, 6), chance.randint(1, 6)
    most = chance.choice((1, 2, 5))
    draw, edges = weigher(chance, True), []
    values = [0] * (side + other)
    for _ in range(chance.randint(0, 3 * (side + other))):
        u, v, used = chance.randint(1, side), side + chance.randint(1, other), 0
        if chance.randrange(2):
            used = 1 if kind == "ffactor" else chance.randint(0, most)
        capacity = chance.choice((None, used, used + chance.randint(0, 2)))
        edges.append((*chance.sample((u, v), 2), draw(), capacity))
        values[u - 1] += used
        values[v - 1] += used
    if chance.randrange(4) == 0:
        for end in (chance.randint(1, side), side + chance.randint(1, other)):
            values[end - 1] += 1
    for v in chance.sample(range(1, side + other + 1), chance.randint(0, 1)):
        if values[v - 1] < 2 or kind == "capmatch":
            edges.append((v, v, draw(), 0))
    chance.shuffle(edges)
    return edges, values, stated(kind, least_transport(kind, side, edges, values))


def made_decomposition(chance):
    n, pairs = shaped(chance)
    edges = [(u, v, chance.randint(-9, 9), None) for u, v in shuffled(chance, n, pairs)]
    basis = kernel(n, [edge[:2] for edge in edges], chance)
    outer = {v for v in range(1, n + 1) if any(vector[v - 1] for vector in basis)}
    border = {t for u, v, *_ in edges for s, t in ((u, v), (v, u)) if s in outer} - outer
    sets = [
        " ".join(map(str, [letter, len(of), *sorted(of)]))
        for letter, of in (("d", outer), ("u", border))
    ]
    return edges, [0] * n, ["s OPTIMAL gallai %d" % ((n - len(basis)) // 2)] + sets


def made_bottleneck(chance):
    n, edges = weighed(chance, True)
    while n > 20:
        n, edges = weighed(chance, True)
    weights = sorted({edge[2] for edge in edges})
    low, high = 0, len(weights)
    while low < high:
        middle = (low + high) // 2
        pairs = [edge[:2] for edge in edges if edge[2] <= weights[middle]]
        if kernel(n, pairs, chance):
            low = middle + 1
        else:
            high = middle
    best = weights[low] if low < len(weights) else None
    return edges, [0] * n, stated("bottleneck", best)


JOBS = {
    "decompositions": ("gallai", made_decomposition),
    "joins": ("tjoin", made_join),
    "joins in a tree": ("tjoin", made_tree_join),
    "tours": ("postman", made_tour),
    "paths": ("path", made_path),
    "transports": ("bmatch", functools.partial(made_transport, "bmatch")),
    "capacities": ("capmatch", functools.partial(made_transport, "capmatch")),
    "factors": ("ffactor", functools.partial(made_transport, "ffactor")),
    "bottlenecks": ("bottleneck", made_bottleneck),
}


# ---- solutions without certificate


def counts_of(lines, edges):
    """How often the lines of a solution use each edge, and where they begin and end: a walk goes
    from vertex to vertex, which is tested."""
    counts, place = [0] * len(edges), None
    for line in lines:
        fields = line.split()
        if fields[0] == "x":
            counts[int(fields[1]) - 1] = int(fields[2])
        if fields[0] == "w":
            start = place = int(fields[1])
            for number in map(int, fields[3:]):
                u, v = edges[number - 1][:2]
                if place not in (u, v):
                    return counts, None
                place = u + v - place
                counts[number - 1] += 1
            place = start, place
    return counts, place


def is_solution(kind, edges, values, lines):
    """Whether the lines are a solution of the weight that the first one states."""
    counts, ends = counts_of(lines, edges)
    degrees = [0] * (len(values) + 1)
    for end, count in ((end, count) for count, edge in zip(counts, edges) for end in edge[:2]):
        degrees[end] += count
    weight = sum(count * edge[2] for count, edge in zip(counts, edges))
    used = [edge[2] for count, edge in zip(counts, edges) if count]
    odd = [v for v, value in enumerate(values, 1) if value % 2]
    fits = {
        "gallai": lambda: max(degrees) <= 1,
        "bottleneck": lambda: set(degrees[1:]) <= {1},
        "tjoin": lambda: [v for v in range(1, len(degrees)) if degrees[v] % 2] == odd
        and max(counts, default=0) <= 1,
        "postman": lambda: not edges or (min(counts) >= 1 and ends[0] == ends[1]),
        "path": lambda: sorted(ends) == odd and max(degrees) <= 2,
    }.get(kind, lambda: degrees[1:] == values and in_bounds(kind, edges, counts))
    size = {"gallai": sum(counts), "bottleneck": max(used, default=0)}.get(kind, weight)
    return fits() and int(lines[0].split()[3]) == size


def in_bounds(kind, edges, counts):
    if kind == "ffactor":
        return max(counts, default=0) <= 1
    limits = [None if kind == "bmatch" else edge[3] for edge in edges]
    return all(limit is None or count <= limit for limit, count in zip(limits, counts))


# ---- the program


def first_lines(output):
    """The first line, and those of sets if it is a decomposition."""
    lines = output.splitlines()
    return lines[:1] + [line for line in lines[1:] if line[0] in "du"]


def fault(program, kind, edges, values, wanted):
    """What is wrong with the program's answers, or None."""
    text = plain_solver.instance(edges, values).encode()
    status, output, errors = program.run(["solve", kind], text)
    sets = first_lines(output) if kind == "gallai" else output.splitlines()[:1]
    if (status, errors, sets) != (0, "", wanted):
        return text, "wanted %r, got %r" % (wanted, (status, output[:300], errors[:200]))
    verdict = program.run(["check", kind], text + output.encode())
    if verdict != (0, "s ACCEPTED\n", ""):
        return text, "its document %r is answered %r" % (output[:300], verdict)
    status, output, errors = program.run(["solve", kind, "--brief"], text)
    lines = output.splitlines()
    if (status, errors, first_lines(output) if kind == "gallai" else lines[:1]) != (0, "", wanted):
        return text, "without certificate %r" % ((status, output[:300], errors[:200]),)
    if lines[0].startswith("s OPTIMAL") and not is_solution(kind, edges, values, lines):
        return text, "without certificate no solution of its weight: %r" % (output[:300],)
    return None


def chunk(job):
    """How many instances, and the faults, of one seed."""
    path, name, seed, count = job
    kind, make = JOBS[name]
    program, chance, faults = fuzz.Program(path), random.Random("%s/%s" % (name, seed)), []
    for _ in range(count):
        edges, values, wanted = make(chance)
        wrong = fault(program, kind, edges, values, wanted)
        if wrong is not None:
            faults.append("FAILED %s, %s\n  input    %r\n  %s" % (name, kind, *wrong))
    for file in program.files:
        os.close(file)
    return count, faults


def run(path, count=COUNT, seed=1, processes=None):
    """Prints the faults of so many instances of each job, and answers how many instances passed
    and failed."""
    jobs = [
        (path, name, "%d/%d" % (seed, start), min(CHUNK, count - start))
        for name in JOBS
        for start in range(0, count, CHUNK)
    ]
    passed = failed = 0
    with multiprocessing.Pool(processes) as pool:
        for tried, faults in pool.imap_unordered(chunk, jobs):
            passed, failed = passed + tried - len(faults), failed + len(faults)
            for text in faults:
                print(text, flush=True)
    return passed, failed


def check(program, tests):
    """All of it, as a part of the whole run of tests."""
    passed, failed = run(program)
    tests.passed, tests.failed = tests.passed + passed, tests.failed + failed


if __name__ == "__main__":
    NUMBERS = [int(word) for word in sys.argv[2:]]
    PASSED, FAILED = run(os.path.abspath(sys.argv[1]), *NUMBERS)
    print("%d passed, %d failed" % (PASSED, FAILED))
    sys.exit(0 if FAILED == 0 and PASSED > 0 else 1)
