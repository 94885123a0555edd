"""Made inputs for the benches: graphs with an optimal perfect matching and the duals that prove
it."""
import random


def with_document(n, m, seed=1):
    """n vertices (even), m edges, and a document: an instance and its certificate, as bytes."""
    draw = random.Random(seed)
    dual = [0] + [2 * draw.randint(-100_000_000, 100_000_000) for _ in range(n)]
    mates = list(range(1, n + 1))
    draw.shuffle(mates)
    edges = []
    for k in range(0, n, 2):
        u, v = mates[k], mates[k + 1]
        edges.append((u, v, (dual[u] + dual[v]) // 2, True))
    while len(edges) < m:
        u, v = draw.randint(1, n), draw.randint(1, n)
        if u != v:
            edges.append((u, v, (dual[u] + dual[v]) // 2 + draw.randint(0, 1_000_000), False))
    draw.shuffle(edges)
    lines = ["p edge %d %d" % (n, m)] + ["e %d %d %d" % e[:3] for e in edges]
    weight = sum(e[2] for e in edges if e[3])
    lines.append("s OPTIMAL perfect %d" % weight)
    lines += ["x %d 1" % (k + 1) for k, e in enumerate(edges) if e[3]]
    lines += ["y %d %d" % (v, dual[v]) for v in range(1, n + 1)]
    return ("\n".join(lines) + "\n").encode()


def with_nested_sets(n, m, count, seed=1):
    """The same with `count` nested odd sets of dual 2, of 3, 5, 7, .. vertices."""
    draw = random.Random(seed)
    order = list(range(1, n + 1))
    draw.shuffle(order)
    dual = [0] + [2 * draw.randint(-100_000_000, 100_000_000) for _ in range(n)]
    rank = {v: min(max(k // 2 + k % 2, 1), count + 1) for k, v in enumerate(order)}
    rank[order[0]] = 1

    def weight(u, v):
        return (dual[u] + dual[v]) // 2 + abs(rank[u] - rank[v])

    pairs = [(order[0], order[-1])] + [(order[k], order[k + 1]) for k in range(1, n - 2, 2)]
    edges = [(u, v, weight(u, v), True) for u, v in pairs]
    while len(edges) < m:
        u, v = draw.randint(1, n), draw.randint(1, n)
        if u != v:
            edges.append((u, v, weight(u, v) + draw.randint(0, 1_000_000), False))
    draw.shuffle(edges)
    lines = ["p edge %d %d" % (n, m)] + ["e %d %d %d" % e[:3] for e in edges]
    lines.append("s OPTIMAL perfect %d" % sum(e[2] for e in edges if e[3]))
    lines += ["x %d 1" % (k + 1) for k, e in enumerate(edges) if e[3]]
    lines += ["y %d %d" % (v, dual[v]) for v in range(1, n + 1)]
    for k in range(1, count + 1):
        members = sorted(order[: 2 * k + 1])
        lines.append("z 2 %d %s" % (len(members), " ".join(map(str, members))))
    return ("\n".join(lines) + "\n").encode()


def instance(n, m, seed=1):
    """n vertices and m edges with weights of all lengths."""
    draw = random.Random(seed)
    lines = ["p edge %d %d" % (n, m)]
    for _ in range(m):
        u = draw.randint(1, n)
        v = draw.randint(1, n - 1)
        lines.append("e %d %d %d" % (u, v + (v >= u), draw.randint(-(10**9), 10**9)))
    return ("\n".join(lines) + "\n").encode()


def with_postman_walk(count):
    """A circle of 2,048 edges of weight 0, and a walk of `count` edges round it, which is best
    as every one is."""
    n = 2048
    lines = ["p edge %d %d" % (n, n)] + ["e %d %d 0" % (v, v % n + 1) for v in range(1, n + 1)]
    rounds = count // n
    lines.append("s OPTIMAL postman 0")
    lines.append(
        "w 1 %d %s" % (rounds * n, " ".join([" ".join(map(str, range(1, n + 1)))] * rounds))
    )
    lines += ["y %d 0" % v for v in range(1, 2 * n + 1)]
    return ("\n".join(lines) + "\n").encode()


def with_large_copies():
    """One edge between two vertices of value 1,024, whose copies have 1,048,576 edges, and the
    optimal document."""
    lines = [
        "p edge 2 1",
        "n 1 1024",
        "n 2 1024",
        "e 1 2 7",
        "s OPTIMAL bmatch %d" % (7 * 1024),
        "x 1 1024",
    ]
    lines += ["y %d 7" % v for v in range(1, 2049)]
    return ("\n".join(lines) + "\n").encode()


def copies_as_graph():
    """The edges of those copies as an instance of their own."""
    lines = ["p edge 2048 1048576"] + [
        "e %d %d 7" % (a, 1024 + b) for a in range(1, 1025) for b in range(1, 1025)
    ]
    return ("\n".join(lines) + "\n").encode()


def largest_gadgets():
    """For each kind with a graph of its own an instance whose graph is as large as its limits
    allow, near enough: the kind, the number of edges of the graph, and the bytes."""
    draw = random.Random(1)
    pairs = [
        "e %d %d %d"
        % (k % 2048 + 1, (k * 7 + k // 2048 + 1) % 2047 + 1, draw.randint(-(10**9), 10**9))
        for k in range(65536)
    ]
    pairs = [e if len(set(e.split()[1:3])) == 2 else "e 1 2 3" for e in pairs]
    one = ["n 1 1024", "n 2 1024", "e 1 2 7"]
    gates = ["n 1 512", "n 2 512", "e 1 2 7", "e 1 2 8 150"]
    clique = ["e %d %d 5" % (u, v) for u in range(1, 9) for v in range(u + 1, 9)]
    star = ["n %d 170" % v for v in range(1, 9)] + clique * 40
    fan = ["e 1 2 %d" % draw.randint(0, 10**9) for _ in range(1023)]
    tables = [
        ("match", 2048, pairs, 2 * 65536 + 2048),
        ("bmatch", 2, one, 1024 * 1024),
        ("capmatch", 2, gates, 3 * 512 * 512 + 150 * (512 + 150 + 512)),
        ("ffactor", 8, star, 1120 * (170 + 1 + 170)),
        ("tjoin", 2, ["n 1 1", "n 2 1"] + fan, 1023 + 1023 * 1022),
        ("postman", 2, fan, 1023 + 1023 * 1022),
        ("interval", 2, ["n 1 0 417", "n 2 0 417", "e 1 2 7"], 2 * 3 * 417 * 417 + 2 * 417),
    ]
    ways = [(draw.randint(1, 4095), draw.randint(0, 10**9)) for _ in range(65536)]
    ways = ["n 1 1", "n 4096 1"] + ["e %d %d %d" % (u, u + 1, w) for u, w in ways]
    inner = sum(1 for row in ways[2:] if not {"1", "4096"} & set(row.split()[1:3]))
    outer = {end: sum(1 for row in ways[2:] if end in row.split()[1:3]) for end in ("1", "4096")}
    tables += [
        ("oddpath", 4096, ways, 65536 + inner + 4094),
        ("evenpath", 4096, ways, 2 * 65536 - outer["1"] - outer["4096"] + 4094),
    ]
    for kind, n, rows, edges in tables:
        count = sum(row.startswith("e") for row in rows)
        yield kind, edges, ("\n".join(["p edge %d %d" % (n, count)] + rows) + "\n").encode()
