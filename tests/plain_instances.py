"""A plain second reader of instances: how the program refuses one, or None where it has to go on.

It is written from docs/FORMAT.md alone, as simply as can be, and shares nothing with the
program: the end-to-end tests compare the two on inputs that were changed at random."""
from plain_checker import fields_of, number

VERTICES, EDGES, VALUE, WEIGHT = 4096, 65536, 4096, 10**12
GRAPH_VERTICES, GRAPH_EDGES = 16384, 1048576
FROM_ZERO, ENDS = ("postman", "oddpath", "evenpath"), ("path", "oddpath", "evenpath")


class Refused(Exception):
    def __init__(self, rule, line):
        Exception.__init__(self, rule)
        self.status, self.answer = 3, "s MALFORMED %s %d\n" % (rule, line)


class Reader:
    """What was read of an instance so far."""

    def __init__(self, kind):
        self.kind, self.header, self.edges, self.values, self.negative = kind, None, [], {}, None

    def natural(self, field, low, high, line):
        value = number(field)
        if value is None:
            raise Refused("Number", line)
        if not low <= value <= high:
            raise Refused("Range", line)
        return value

    def read_header(self, fields, line):
        if self.header is not None:
            raise Refused("HeaderTwice", line)
        if len(fields) != 4 or fields[1] not in ("edge", "col"):
            raise Refused("HeaderForm", line)
        vertices = self.natural(fields[2], 0, VERTICES, line)
        self.header = vertices, self.natural(fields[3], 0, EDGES, line)

    def read_edge(self, fields, line):
        if len(fields) not in (3, 4, 5):
            raise Refused("FieldCount", line)
        u, v = (self.natural(field, 1, self.header[0], line) for field in fields[1:3])
        weight = self.natural(fields[3], -WEIGHT, WEIGHT, line) if len(fields) > 3 else 1
        capacity = self.natural(fields[4], 0, VALUE, line) if len(fields) > 4 else None
        if weight < 0 and self.negative is None:
            self.negative = line
        self.edges.append((u, v, capacity))

    def read_value(self, fields, line):
        if len(fields) != (4 if self.kind == "interval" else 3):
            raise Refused("FieldCount", line)
        vertex = self.natural(fields[1], 1, self.header[0], line)
        value = self.natural(fields[2], 0, VALUE, line)
        if self.kind == "interval":
            value = value, self.natural(fields[3], value, VALUE, line)
        if vertex in self.values:
            raise Refused("NodeTwice", line)
        self.values[vertex] = value

    def read(self, fields, line):
        if fields[0] == "p":
            self.read_header(fields, line)
        elif fields[0] not in ("e", "n"):
            raise Refused("UnknownLine", line)
        elif self.header is None:
            raise Refused("HeaderMissing", line)
        elif fields[0] == "e":
            self.read_edge(fields, line)
        else:
            self.read_value(fields, line)

    def end(self, line):
        if self.header is None:
            raise Refused("HeaderMissing", line)
        if len(self.edges) != self.header[1]:
            raise Refused("EdgeCount", line)
        if self.kind in FROM_ZERO and self.negative is not None:
            raise Refused("Negative", self.negative)
        if self.kind in ENDS and sum(value % 2 for value in self.values.values()) != 2:
            raise Refused("PathEnds", line)

    def bounds(self, vertex):
        return self.values.get(vertex, (0, 1))

    def value(self, vertex):
        if self.kind == "interval":
            return self.bounds(vertex)[1]
        return self.values.get(vertex, 1 if self.kind in ("bmatch", "capmatch", "ffactor") else 0)


def ports(read, wanted):
    """The size of the graph of ports, where so many ports are wanted at a vertex, of which only
    the parity counts. A loop has two ports at its vertex."""
    degrees = [0] * (read.header[0] + 1)
    for u, v, _ in read.edges:
        degrees[u] += 1
        degrees[v] += 1
    sizes = [
        degrees[v] + (degrees[v] + wanted(v, degrees[v])) % 2 for v in range(1, read.header[0] + 1)
    ]
    return sum(sizes), len(read.edges) + sum(size * (size - 1) // 2 for size in sizes)


def sides(read):
    """The size of two copies of the graph without its loops, each with the vertices that stand
    there, and those that stand in both joined: an odd path leaves its ends out of the second, an
    even one its second end out of the first, its first out of the second."""
    everywhere = set(range(1, read.header[0] + 1))
    start, end = sorted(v for v in everywhere if read.value(v) % 2)
    one, two = (
        (everywhere, everywhere - {start, end})
        if read.kind == "oddpath"
        else (everywhere - {end}, everywhere - {start})
    )
    return len(one) + len(two), sum(
        u != v and {u, v} <= side for u, v, _ in read.edges for side in (one, two)
    ) + len(one & two)


def graph_size(read):
    """How many vertices and edges the graph has that certificates speak of."""
    vertices, b = read.header[0], read.value
    links = sum(u != v for u, v, _ in read.edges)
    if read.kind in ("perfect", "bottleneck", "gallai"):
        return vertices, links
    if read.kind == "match":
        return 2 * vertices, 2 * links + vertices
    if read.kind == "postman":
        return ports(read, lambda v, degree: degree)
    if read.kind in ("tjoin", "path"):
        of_values, of_none = ports(read, lambda v, degree: b(v)), ports(read, lambda v, degree: 0)
        return of_values if read.kind == "tjoin" else tuple(map(max, of_values, of_none))
    if read.kind in ("oddpath", "evenpath"):
        return sides(read)
    total = sum(b(v) for v in range(1, vertices + 1))
    if read.kind == "bmatch":
        return total, sum(
            b(u) * (b(u) - 1) // 2 if u == v else b(u) * b(v) for u, v, _ in read.edges
        )
    size = 0
    for u, v, capacity in read.edges:
        k = min(
            [b(u), b(v)]
            + ([1] if read.kind == "ffactor" else [] if capacity is None else [capacity])
        )
        total += 2 * k
        size += k * (b(u) + k + b(v))
    if read.kind == "interval":
        return 2 * total, 2 * size + sum(
            high - low for low, high in map(read.bounds, range(1, vertices + 1))
        )
    return total, size


def refusal(command, kind, text):
    """The status and the line by which an input is refused before it is solved or judged, or
    None; and the size of its graph."""
    reader, lines = Reader(kind), text.split("\n")
    if lines[-1] == "":
        lines.pop()
    end, solution = len(lines) + 1, False
    try:
        for line, content in enumerate(lines, 1):
            fields = fields_of(content)
            if fields and fields[0] == "s":
                end, solution = line, True
                break
            if fields and not fields[0].startswith("c"):
                reader.read(fields, line)
        reader.end(end)
        if solution and command == "solve":
            raise Refused("UnknownLine", end)
    except Refused as refused:
        return (refused.status, refused.answer), None
    size = graph_size(reader)
    if size[0] > GRAPH_VERTICES or size[1] > GRAPH_EDGES:
        return (4, "s TOOLARGE %d %d\n" % size), size
    return None, size
