"""A plain second solver for small instances: the weight of a best answer, by trying all counts edge
by edge, all sets of edges for joins, all paths and circuits for paths; a tour is all edges and a
least join of the odd vertices once more; for `bottleneck` the edges up to each weight; for `gallai`
a vertex is missed by some greatest matching where the graph without it has one as large. In
instances of `interval` the value of a vertex is a pair, the bounds of its degree.

It shares nothing with the program: the end-to-end tests compare the two."""
from functools import lru_cache

KINDS = ("perfect", "match", "bmatch", "capmatch", "ffactor")
USED_ONCE = ("perfect", "match", "ffactor")
PARITIES = {"oddpath": 1, "evenpath": 0}


def best_weight(kind, edges, values):
    """The weight of a best answer, or None where there is none. An edge is (u, v, w, capacity),
    where a capacity of None is no limit; `values` are those of the vertices 1 to n."""
    choose = max if kind == "match" else min
    bounds = {
        "perfect": [(1, 1)] * len(values),
        "match": [(0, 1)] * len(values),
        "interval": values,
    }.get(kind)
    if bounds is None:
        bounds = [(value, value) for value in values]

    def most(left, edge):
        u, v, _, capacity = edge
        limits = [left[u - 1] // 2] if u == v else [left[u - 1], left[v - 1]]
        if kind in USED_ONCE:
            limits.append(1)
        if kind in ("capmatch", "interval") and capacity is not None:
            limits.append(capacity)
        return min(limits)

    @lru_cache(maxsize=None)
    def best(place, left):
        """The best weight of the edges from this place on, where the vertices may still be met
        so often."""
        if place == len(edges):
            return (
                0 if all(spare <= high - low for spare, (low, high) in zip(left, bounds)) else None
            )
        u, v, w, _ = edges[place]
        answers = []
        for count in range(most(left, edges[place]) + 1):
            rest = best(
                place + 1,
                tuple(degree - count * (u, v).count(t) for t, degree in enumerate(left, 1)),
            )
            if rest is not None:
                answers.append(count * w + rest)
        return choose(answers, default=None)

    return best(0, tuple(high for _, high in bounds))


def least_join(edges, odd):
    """The least weight of a set of edges with an odd degree at exactly these vertices, or None:
    all sets of edges, those of the same odd vertices together."""
    found = {frozenset(): 0}
    for u, v, w, _ in edges:
        for vertices, weight in list(found.items()):
            turned = vertices ^ {u} ^ {v}
            found[turned] = min(found.get(turned, weight + w), weight + w)
    return found.get(frozenset(odd))


def component(edges, start):
    """The vertices that walks join with one."""
    reached = {start}
    while True:
        more = {t for u, v, _, _ in edges if u in reached or v in reached for t in (u, v)} - reached
        if not more:
            return reached
        reached |= more


def walks(edges, start, ends):
    """The weights of all walks from a vertex to another, or back, that come to no vertex and use
    no edge twice, each with the number of its edges."""

    def onward(here, weight, vertices, used):
        for place, (u, v, w, _) in enumerate(edges):
            if here in (u, v) and place not in used:
                there = v if here == u else u
                if there in ends:
                    yield weight + w, len(used) + 1
                elif there not in vertices:
                    yield from onward(there, weight + w, vertices | {there}, used | {place})

    return onward(start, 0, {start}, frozenset())


def odd_vertices(values):
    return [v for v, value in enumerate(values, 1) if value % 2]


def excluding_part(kind, edges, values):
    """The vertices that no edge leaves and that exclude all joins, tours or paths, or None."""
    if kind == "postman":
        first = component(edges, min(min(edge[:2]) for edge in edges)) if edges else set()
        return first if any(edge[0] not in first for edge in edges) else None
    for v in range(1, len(values) + 1):
        part = component(edges, v)
        if len(part & set(odd_vertices(values))) % 2:
            return part
    return None


def join_lines(kind, edges, values):
    """The first line of an answer for a join, a tour or a path, and the second where there is no
    answer."""
    if kind == "path" and any(
        weight < 0 for v in range(1, len(values) + 1) for weight, _ in walks(edges, v, {v})
    ):
        return ["s NONCONSERVATIVE path"]
    part = excluding_part(kind, edges, values)
    if part is not None:
        return [
            "s INFEASIBLE " + kind,
            " ".join(map(str, ["q" if kind == "postman" else "t", len(part)] + sorted(part))),
        ]
    if kind == "tjoin":
        weight = least_join(edges, odd_vertices(values))
    elif kind == "postman":
        odd = [v for v in range(1, len(values) + 1) if sum(edge[:2].count(v) for edge in edges) % 2]
        weight = sum(edge[2] for edge in edges) + least_join(edges, odd)
    else:
        s, t = odd_vertices(values)
        weight = min(weight for weight, _ in walks(edges, s, {t}))
    return ["s OPTIMAL %s %d" % (kind, weight)]


def least_parity_path(kind, edges, values):
    """The least weight of a path of an odd or an even number of edges between the two ends, or
    None."""
    s, t = odd_vertices(values)
    return min(
        (weight for weight, length in walks(edges, s, {t}) if length % 2 == PARITIES[kind]),
        default=None,
    )


def least_heaviest(edges, values):
    """The least weight such that the edges that weigh no more have a perfect matching, or None;
    0 where there are no vertices."""
    weights = sorted({edge[2] for edge in edges}) if values else [0]
    return next(
        (
            most
            for most in weights
            if best_weight("perfect", [edge for edge in edges if edge[2] <= most], values)
            is not None
        ),
        None,
    )


def most_edges(edges, vertices, without=None):
    """How many edges a greatest matching has that doesn't meet this vertex."""
    left = [(u, v, 1, None) for u, v, _, _ in edges if without not in (u, v)]
    return best_weight("match", left, [1] * vertices)


def outer_vertices(edges, vertices):
    """The vertices that some greatest matching misses."""
    most = most_edges(edges, vertices)
    return [v for v in range(1, vertices + 1) if most_edges(edges, vertices, v) == most]


def set_lines(kind, edges, values):
    """The lines of sets that an answer has to have."""
    if kind != "gallai":
        return []
    outer = outer_vertices(edges, len(values))
    border = {
        t for u, v, _, _ in edges for s, t in ((u, v), (v, u)) if s in outer and t not in outer
    }
    return [
        " ".join(map(str, [letter, len(members)] + sorted(members)))
        for letter, members in (("d", outer), ("u", border))
    ]


def first_lines(kind, edges, values):
    """The lines of a full answer that are wanted."""
    if kind == "gallai":
        return ["s OPTIMAL gallai %d" % most_edges(edges, len(values))]
    if kind in ("tjoin", "postman", "path"):
        return join_lines(kind, edges, values)
    if kind == "bottleneck":
        best = least_heaviest(edges, values)
    else:
        best = (least_parity_path if kind in PARITIES else best_weight)(kind, edges, values)
    return ["s INFEASIBLE " + kind if best is None else "s OPTIMAL %s %d" % (kind, best)]


def instance(edges, values):
    """The text of an instance: every vertex's value stands in it, whether the kind uses it or
    not."""
    lines = ["p edge %d %d" % (len(values), len(edges))]
    lines += [
        " ".join(["e"] + [str(number) for number in edge if number is not None]) for edge in edges
    ]
    lines += [
        "n %d %s" % (v, "%d %d" % value if isinstance(value, tuple) else value)
        for v, value in enumerate(values, 1)
    ]
    return "".join(line + "\n" for line in lines)
