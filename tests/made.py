"""Made instances by their rule, and what a trial of one writes. It is written from
docs/FORMAT.md alone, and takes the answer and the graph of certificates from the plain solver
and the plain checker."""
import plain_checker
import plain_solver

KINDS = plain_solver.KINDS + ("tjoin", "postman", "path")


class Draws:
    """Numbers drawn one after another from a start."""

    def __init__(self, start):
        self.state = start

    def draw(self, k):
        self.state = (self.state * 6364136223846793005 + 1442695040888963407) % 2**64
        return (self.state >> 33) % k


def made_value(kind, n, v, draws):
    if kind in ("bmatch", "capmatch", "ffactor"):
        return 1 + draws.draw(2)
    if kind == "tjoin":
        return draws.draw(2)
    return 1 if kind == "path" and v in (1, n) else 0


def made_edge(kind, n, i, draws):
    """The edge of number i: its ends, its weight, and its capacity where it has one."""
    if i < n:
        u, v = i, i + 1
    else:
        u = 1 + draws.draw(n)
        v = [t for t in range(1, n + 1) if t != u][draws.draw(n - 1)]
    weight = draws.draw(1001) if kind in ("postman", "path") else draws.draw(2001) - 1000
    return u, v, weight, 1 + draws.draw(3) if kind == "capmatch" else None


def made(kind, start, n, m):
    """The edges, and the values of the vertices."""
    draws = Draws(start)
    values = [made_value(kind, n, v, draws) for v in range(1, n + 1)]
    return [made_edge(kind, n, i, draws) for i in range(1, m + 1)], values


def graph_size(kind, edges, values):
    """The numbers of vertices and edges of the graph of certificates; for a path the greater
    ones of two graphs."""
    sizes = []
    for odd in (values, [0] * len(values)) if kind == "path" else (values,):
        instance = plain_checker.Instance(kind)
        instance.n, instance.edges, instance.values = len(values), edges, odd
        n, made_edges = plain_checker.gadget(instance)
        sizes.append((n, len(made_edges)))
    return max(n for n, _ in sizes), max(m for _, m in sizes)


def answer_of(kind, start, n, m):
    """What a trial writes, and its status; for small instances, whose answers are found by
    trying all."""
    edges, values = made(kind, start, n, m)
    size = graph_size(kind, edges, values)
    if size[0] > 16384 or size[1] > 1048576:
        return "s TOOLARGE %d %d\n" % size, 4
    return (
        "g %d %d\n%s\ns ACCEPTED\n" % (size + (plain_solver.first_lines(kind, edges, values)[0],)),
        0,
    )
