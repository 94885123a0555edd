"""A plain second checker: the answer of `blossom check KIND` for a well-formed instance that a
document follows.

It is written from docs/FORMAT.md alone, as simply as can be, and shares nothing with the
program: the end-to-end tests compare the two on documents that were changed at random."""
import re

CEILING = 10**18
LETTERS = {
    "OPTIMAL": {
        "perfect": "xyz",
        "match": "xyz",
        "bmatch": "xyz",
        "capmatch": "xyz",
        "ffactor": "xyz",
        "tjoin": "xyz",
        "postman": "wyz",
        "path": "wyz",
        "interval": "xyz",
        "oddpath": "wyz",
        "evenpath": "wyz",
        "bottleneck": "xu",
        "gallai": "xdur",
    },
    "INFEASIBLE": {
        "perfect": "u",
        "bmatch": "u",
        "capmatch": "u",
        "ffactor": "u",
        "tjoin": "t",
        "path": "t",
        "postman": "q",
        "interval": "u",
        "oddpath": "u",
        "evenpath": "u",
        "bottleneck": "u",
    },
    "NONCONSERVATIVE": {"path": "w"},
}
WALKS = ("postman", "path", "oddpath", "evenpath")


class Rejected(Exception):
    def __init__(self, rule, line):
        Exception.__init__(self, rule)
        self.answer = "s REJECTED %s %d\n" % (rule, line)


def fields_of(line):
    return [field for field in re.split("[ \t]+", line.removesuffix("\r")) if field]


def number(field):
    if not re.fullmatch("-?[0-9]+", field):
        return None
    value = int(field)
    return max(-CEILING - 1, min(CEILING + 1, value))


class Instance:
    def __init__(self, kind):
        self.kind, self.n, self.edges, self.values, self.lows = kind, 0, [], [], []

    def read(self, fields):
        if fields[0] == "p":
            self.n = int(fields[2])
            self.values = [
                1 if self.kind in ("bmatch", "capmatch", "ffactor", "interval") else 0
            ] * self.n
            self.lows = [0] * self.n
        elif fields[0] == "e":
            weight = int(fields[3]) if len(fields) > 3 else 1
            self.edges.append(
                (
                    int(fields[1]),
                    int(fields[2]),
                    weight,
                    int(fields[4]) if len(fields) > 4 else None,
                )
            )
        elif self.kind == "interval":  # its greatest degrees are its values
            self.lows[int(fields[1]) - 1], self.values[int(fields[1]) - 1] = int(fields[2]), int(
                fields[3]
            )
        else:
            self.values[int(fields[1]) - 1] = int(fields[2])

    def degree(self, v):
        return sum((a == v) + (b == v) for a, b, _, _ in self.edges)

    def terminals(self):
        return [v for v in range(1, self.n + 1) if self.values[v - 1] % 2 == 1]


def copies(instance):
    start, total = [], 0
    for value in instance.values:
        start.append(total)
        total += value
    return start, total


def sides(instance):
    """Two copies of the graph without its loops, for paths of an odd or an even number of edges,
    and the two copies of each vertex joined. An odd path leaves both ends out of the second
    copy, an even one each end out of one copy."""
    first, last = instance.terminals()
    left_out = ((), (first, last)) if instance.kind == "oddpath" else ((last,), (first,))
    places, total = [{}, {}], 0
    for place, out in zip(places, left_out):
        for v in range(1, instance.n + 1):
            if v not in out:
                total += 1
                place[v] = total
    made = [
        (place[u], place[v], w)
        for u, v, w, _ in instance.edges
        if u != v
        for place in places
        if u in place and v in place
    ]
    return total, made + [
        (places[0][v], places[1][v], 0)
        for v in range(1, instance.n + 1)
        if v in places[0] and v in places[1]
    ]


def halves(instance, size, edges):
    """The graph of gates twice, and each copy of a vertex past its least degree joined to its
    twin."""
    start, _ = copies(instance)
    twins = [
        (start[k] + a, start[k] + a + size, 0)
        for k in range(instance.n)
        for a in range(instance.lows[k] + 1, instance.values[k] + 1)
    ]
    return 2 * size, edges + [(u + size, v + size, w) for u, v, w in edges] + twins


def gadget(instance):
    """The vertices and the edges of the graph that the kind's certificates speak of."""
    kind, n, edges, values = instance.kind, instance.n, instance.edges, instance.values
    links = [(u, v, w) for u, v, w, _ in edges if u != v]
    if kind in ("perfect", "bottleneck"):
        return n, links
    if kind == "gallai":
        return n, [(u, v, 0) for u, v, _ in links]
    if kind == "match":
        doubled = []
        for u, v, w in links:
            doubled += [(u, v, -w), (u + n, v + n, -w)]
        return 2 * n, doubled + [(t, t + n, 0) for t in range(1, n + 1)]
    if kind in ("oddpath", "evenpath"):
        return sides(instance)
    if kind in ("tjoin", "path", "postman"):
        odd = (
            [v for v in range(1, n + 1) if instance.degree(v) % 2 == 1]
            if kind == "postman"
            else instance.terminals()
        )
        first, size, total = {}, {}, 0
        for v in range(1, n + 1):
            first[v] = total
            size[v] = instance.degree(v) + (instance.degree(v) + (v in odd)) % 2
            total += size[v]
        used, ports = {v: 0 for v in range(1, n + 1)}, []
        for u, v, w, _ in edges:
            ends = []
            for end in (u, v):
                used[end] += 1
                ends.append(first[end] + used[end])
            ports.append((*ends, w))
        for v in range(1, n + 1):
            ports += [
                (first[v] + a, first[v] + b, 0)
                for a in range(1, size[v] + 1)
                for b in range(a + 1, size[v] + 1)
            ]
        return total, ports
    start, total = copies(instance)
    made = []
    for u, v, w, c in edges:
        of_u = [start[u - 1] + a for a in range(1, values[u - 1] + 1)]
        of_v = [start[v - 1] + a for a in range(1, values[v - 1] + 1)]
        if kind == "bmatch":
            made += [(a, b, w) for a in of_u for b in of_v if u != v or a < b]
            continue
        k = min(
            [len(of_u), len(of_v)] + ([1] if kind == "ffactor" else [c] if c is not None else [])
        )
        p = [total + j for j in range(1, k + 1)]
        q = [total + k + j for j in range(1, k + 1)]
        total += 2 * k
        made += (
            [(a, b, w) for a in of_u for b in p]
            + [(a, b, 0) for a in p for b in q]
            + [(a, b, 0) for a in q for b in of_v]
        )
    return halves(instance, total, made) if kind == "interval" else (total, made)


def walk_end(instance, start, walk):
    """Where a walk ends and the vertices that it came to, or None where it is no walk."""
    here, came = start, [start]
    for e in walk:
        u, v, _, _ = instance.edges[e - 1]
        if here not in (u, v):
            return None
        here = v if here == u else u
        came.append(here)
    return here, came


def feasible(instance, answer):
    kind = instance.kind
    if kind in WALKS:
        if answer is None:
            return kind == "postman" and not instance.edges
        start, walk = answer
        done = walk_end(instance, start, walk)
        if done is None or not walk:
            return False
        if kind == "postman":
            return done[0] == start and set(walk) == set(range(1, len(instance.edges) + 1))
        if kind != "path" and (len(walk) % 2 == 1) != (kind == "oddpath"):
            return False
        ends = instance.terminals()
        return (
            len(ends) == 2 and (start, done[0]) == tuple(ends) and len(set(done[1])) == len(done[1])
        )
    degrees = [0] * (instance.n + 1)
    for (u, v, _, c), x in zip(instance.edges, answer):
        degrees[u] += x
        degrees[v] += x
        if kind in ("capmatch", "interval") and c is not None and x > c:
            return False
        if kind not in ("bmatch", "capmatch", "interval") and x > 1:
            return False
    wanted = {
        "perfect": lambda v, d: d == 1,
        "bottleneck": lambda v, d: d == 1,
        "match": lambda v, d: d <= 1,
        "gallai": lambda v, d: d <= 1,
        "tjoin": lambda v, d: d % 2 == instance.values[v - 1] % 2,
        "interval": lambda v, d: instance.lows[v - 1] <= d <= instance.values[v - 1],
    }
    rule = wanted.get(kind, lambda v, d: d == instance.values[v - 1])
    return all(rule(v, degrees[v]) for v in range(1, instance.n + 1))


def odd_components(n, edges, removed):
    """The components of odd size that are left without some vertices, as sets."""
    color = {v: None for v in range(1, n + 1) if v not in removed}
    near = {v: [] for v in color}
    for u, v, _ in edges:
        if u in color and v in color:
            near[u].append(v)
            near[v].append(u)
    odd = []
    for root in color:
        if color[root] is None:
            stack, color[root], members = [root], root, set()
            while stack:
                here = stack.pop()
                members.add(here)
                for there in near[here]:
                    if color[there] is None:
                        color[there] = root
                        stack.append(there)
            odd += [members] * (len(members) % 2)
    return odd


def item(field):
    """An item of a set: a vertex as a number, a reference as a pair; None where it is neither."""
    return ("@", number(field[1:])) if re.fullmatch("@[0-9]+", field) else number(field)


def ascend(numbers):
    return all(a < b for a, b in zip(numbers, numbers[1:]))


def members_of(sets):
    """The members of each set, where all have their form. A set is its line, its dual and its
    items."""
    found, referred = [], set()
    for line, _, items in sets:
        vertices = [one for one in items if isinstance(one, int)]
        references = [one[1] for one in items if not isinstance(one, int)]
        parts = [{v} for v in vertices] + [found[j - 1] for j in references]
        members = set().union(*parts)
        if (
            len(items) < 3
            or len(items) % 2 == 0
            or items != vertices + [("@", j) for j in references]
            or not ascend(vertices)
            or not ascend(references)
            or referred & set(references)
            or len(members) < sum(map(len, parts))
        ):
            raise Rejected("SetForm", line)
        referred.update(references)
        found.append(members)
    return found


def check_form(kind_of, lines, last):
    """The parts of a document by the rules of its form."""
    if not lines:
        raise Rejected("DocForm", last + 1)
    at, head = lines[0]
    if (
        head[0] != "s"
        or len(head) < 3
        or head[1] not in LETTERS
        or head[2] not in LETTERS[head[1]]
        or len(head) != (4 if head[1] == "OPTIMAL" else 3)
        or (head[1] == "OPTIMAL" and number(head[3]) is None)
    ):
        raise Rejected("DocForm", at)
    letters = LETTERS[head[1]][head[2]]
    parts, place = [], 0
    for line, fields in lines[1:]:
        letter = fields[0]
        if (
            len(letter) != 1
            or letter not in letters
            or letters.index(letter) < place
            or (letter in "wdutq" and any(p[1] == letter for p in parts))
        ):
            raise Rejected("DocForm", line)
        place = letters.index(letter)
        numbers = [number(field) for field in fields[1:3]] + [
            (item if letter == "z" else number)(field) for field in fields[3:]
        ]
        if None in numbers:
            raise Rejected("DocForm", line)
        if letter in "xy":
            good = len(numbers) == 2
        elif letter in "wzr":
            good = (
                len(numbers) >= 2
                and len(numbers) == 2 + numbers[1]
                and (letter != "w" or numbers[1] >= 1)
            )
        else:
            good = len(numbers) >= 1 and len(numbers) == 1 + numbers[0]
            good = good and ascend(numbers[1:])
        if good and letter in "xyr" and parts and parts[-1][1] == letter:
            good = parts[-1][2][0] < numbers[0]
        if not good:
            raise Rejected("DocForm", line)
        parts.append((line, letter, numbers))
    return at, head, parts


def check_ranges(instance, size, at, head, parts):
    n, m = instance.n, len(instance.edges)
    if head[1] == "OPTIMAL" and abs(number(head[3])) > CEILING:
        raise Rejected("DocRange", at)
    sets = 0
    for line, letter, numbers in parts:
        sets += letter == "z"
        good = {
            "x": lambda: 1 <= numbers[0] <= m and 1 <= numbers[1] <= 4096,
            "w": lambda: 1 <= numbers[0] <= n and all(1 <= e <= m for e in numbers[2:]),
            "y": lambda: 1 <= numbers[0] <= size and abs(numbers[1]) <= CEILING,
            "z": lambda: 1 <= numbers[0] <= CEILING
            and all(
                1 <= one <= size if isinstance(one, int) else 1 <= one[1] < sets
                for one in numbers[2:]
            ),
            "d": lambda: all(1 <= v <= size for v in numbers[1:]),
            "r": lambda: 1 <= numbers[0] <= n and all(1 <= e <= m for e in numbers[2:]),
            "u": lambda: all(1 <= v <= size for v in numbers[1:]),
            "t": lambda: all(1 <= v <= n for v in numbers[1:]),
            "q": lambda: all(1 <= v <= n for v in numbers[1:]),
        }[letter]()
        if not good:
            raise Rejected("DocRange", line)


def check_lighter(instance, size, edges, at, weight, parts):
    """The barrier beside a best answer, where all edges that are as heavy are left out."""
    sets = [set(numbers[1:]) for _, letter, numbers in parts if letter == "u"]
    lighter = [edge for edge in edges if edge[2] < weight]
    if instance.n > 0 and not any(
        len(odd_components(size, lighter, members)) > len(members) for members in sets
    ):
        raise Rejected("NotBarrier", at)


def is_even_path(instance, counts, start, walk):
    """Whether it comes to no vertex twice, goes along the matching and beside it in turn, and
    ends at a vertex that this misses."""
    done = walk_end(instance, start, walk)
    if (
        done is None
        or len(set(done[1])) < len(done[1])
        or [counts[e - 1] for e in walk] != [1, 0] * (len(walk) // 2)
    ):
        return False
    return not any(x and done[0] in edge[:2] for x, edge in zip(counts, instance.edges))


def check_paths(instance, at, counts, parts):
    """The vertices that some greatest matching misses, with a path for each, and their
    neighbours, which leave as many odd components as they and the missed vertices are."""
    sets = {letter: set(numbers[1:]) for _, letter, numbers in parts if letter in "du"}
    outer, starts = sets.get("d", set()), set()
    for line, letter, numbers in parts:
        if letter == "r":
            if numbers[0] not in outer or not is_even_path(
                instance, counts, numbers[0], numbers[2:]
            ):
                raise Rejected("PathForm", line)
            starts.add(numbers[0])
    if "d" not in sets or starts != outer:
        raise Rejected("PathMissing", at)
    border = {
        t
        for u, v, _, _ in instance.edges
        for s, t in ((u, v), (v, u))
        if s in outer and t not in outer
    }
    odd = odd_components(instance.n, [edge[:3] for edge in instance.edges], border)
    if (
        sets.get("u") != border
        or len(odd) != instance.n - 2 * sum(counts) + len(border)
        or any(part - outer for part in odd)
    ):
        raise Rejected("NotBarrier", at)


def check_optimal(instance, size, edges, at, weight, parts):
    kind = instance.kind
    walks = [(numbers[0], numbers[2:]) for _, letter, numbers in parts if letter == "w"]
    if kind in WALKS:
        answer = walks[0] if walks else None
        used = answer[1] if answer else []
        weighs = sum(instance.edges[e - 1][2] for e in used)
    else:
        answer = [0] * len(instance.edges)
        for _, letter, numbers in parts:
            if letter == "x":
                answer[numbers[0] - 1] = numbers[1]
        used = [edge[2] for x, edge in zip(answer, instance.edges) for _ in range(x)]
        weighs = (
            max(used, default=0)
            if kind == "bottleneck"
            else len(used)
            if kind == "gallai"
            else sum(used)
        )
    if not feasible(instance, answer):
        raise Rejected("NotFeasible", at)
    if weighs != weight:
        raise Rejected("WeightDiffers", at)
    if kind == "bottleneck":
        return check_lighter(instance, size, edges, at, weight, parts)
    if kind == "gallai":
        return check_paths(instance, at, answer, parts)
    y = {numbers[0]: numbers[1] for _, letter, numbers in parts if letter == "y"}
    sets = [(line, numbers[0], numbers[2:]) for line, letter, numbers in parts if letter == "z"]
    if len(y) != size:
        raise Rejected("DualMissing", at)
    members = members_of(sets)
    for u, v, w in edges:
        if (
            2 * w
            - y[u]
            - y[v]
            - sum(z for (_, z, _), held in zip(sets, members) if (u in held) != (v in held))
            < 0
        ):
            raise Rejected("Slack", at)
    total = sum(edge[2] for edge in instance.edges)
    wanted = {"match": -4 * weight, "postman": 2 * (weight - total), "interval": 4 * weight}.get(
        kind, 2 * weight
    )
    if sum(y.values()) + sum(z for _, z, _ in sets) != wanted:
        raise Rejected("ValueDiffers", at)


def check_infeasible(instance, size, edges, at, parts):
    kind = instance.kind
    rule = "NotClosed" if kind in ("tjoin", "path", "postman") else "NotBarrier"
    if not parts:
        raise Rejected(rule, at)
    members = set(parts[0][2][1:])
    if rule == "NotBarrier":
        good = len(odd_components(size, edges, members)) > len(members)
    else:
        good = all((u in members) == (v in members) for u, v, _, _ in instance.edges)
        inside = [u in members for u, _, _, _ in instance.edges]
        good = good and (
            any(inside) and not all(inside)
            if kind == "postman"
            else len(members & set(instance.terminals())) % 2 == 1
        )
    if not good:
        raise Rejected(rule, at)


def check_circuit(instance, at, parts):
    if not parts:
        raise Rejected("NotCircuit", at)
    start, walk = parts[0][2][0], parts[0][2][2:]
    done = walk_end(instance, start, walk)
    if (
        done is None
        or done[0] != start
        or len(set(walk)) != len(walk)
        or len(set(done[1][:-1])) != len(walk)
        or sum(instance.edges[e - 1][2] for e in walk) >= 0
    ):
        raise Rejected("NotCircuit", at)


def answer_of(kind, text):
    """The status and the line that the program has to answer with."""
    instance, document, lines = Instance(kind), [], text.split("\n")
    if lines[-1] == "":
        lines.pop()
    begun = False
    for place, line in enumerate(lines, 1):
        fields = fields_of(line)
        if not fields or fields[0].startswith("c"):
            continue
        begun = begun or fields[0] == "s"
        if begun:
            document.append((place, fields))
        else:
            instance.read(fields)
    try:
        at, head, parts = check_form(kind, document, len(lines))
        if head[2] != kind:
            raise Rejected("KindDiffers", at)
        size, edges = gadget(instance)
        check_ranges(instance, size, at, head, parts)
        if head[1] == "OPTIMAL":
            check_optimal(instance, size, edges, at, number(head[3]), parts)
        elif head[1] == "INFEASIBLE":
            check_infeasible(instance, size, edges, at, parts)
        else:
            check_circuit(instance, at, parts)
    except Rejected as refused:
        return 1, refused.answer
    return 0, "s ACCEPTED\n"
