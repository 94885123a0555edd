"""Tests of the call for the joins of many sets of terminals of the library for C: each set beside a
solve of its own, sets and arrays that are wrong, buffers of each length, equal calls in several
threads, memory, and the structs, blossom.hpp and the example by compilers."""
import concurrent.futures
import ctypes
import os
import random
import resource
import subprocess
import sys

import c_compilers
from c_arrays import Arrays, array
from c_header import CAPI
from c_parts import Library
from c_structs import STANDARDS, ran

JOINED, NO_JOIN, OUT_OF_RANGE, REPEATED, TOO_LARGE = range(5)
#: Graphs that are made, and the sets of terminals of each: 2,000 sets in all.
GRAPHS, SETS = 125, 16
#: What capi/example_joins.c solves: vertices, endpoints and weights; and its sets.
EXAMPLE = (6, [1, 2, 3, 4, 5, 1, 5], [2, 3, 4, 5, 1, 3, 6], [2, 3, 1, 4, 2, 1, 5])
EXAMPLE_SETS = [[1, 4], [], [2, 3, 5, 6], [1, 2, 3], [4, 7]]
PRINTED = """set 0: weight 2, edges 3 6
set 1: weight 0, edges
set 2: weight 8, edges 2 7
set 3: a component has an odd number of terminals
set 4: the terminal at index 1 is not a vertex
"""


def most(sets, edges):
    """Numbers that suffice for the joins of so many sets: what the header calls
    BLOSSOM_JOINS_SIZE."""
    return 2 + sets * (3 + edges)


def starts_of(sets):
    """Where the terminals of each set start, and the end of the last."""
    return [sum(map(len, sets[:count])) for count in range(len(sets) + 1)]


class Joins:
    """The call for joins."""

    def __init__(self, library):
        self.call = library.object.blossom_join_arrays

    def prepared(self, graph, starts, terminals, room):
        """A call as a function that takes nothing, and answers its status, how many numbers there
        are, and the whole buffer, which is one number longer than is said and full of sevens
        before."""
        vertices, *parts = graph
        kinds = [ctypes.c_uint32] * 2 + [ctypes.c_int64] + [ctypes.c_uint32] * 2
        held = [array(kind, part) for kind, part in zip(kinds, (*parts, starts, terminals))]
        output, used = (ctypes.c_int64 * (room + 1))(*[7] * (room + 1)), ctypes.c_size_t(77)
        words = [word for memory, length in held for word in (memory, length)]

        def call():
            status = self.call(vertices, *words, output, room, ctypes.byref(used))
            return status, used.value, list(output)

        return call

    def over(self, graph, starts, terminals, room):
        """What such a call answers."""
        return self.prepared(graph, starts, terminals, room)()

    def numbers(self, graph, starts, terminals):
        """The status and the numbers, in a buffer that is never too small."""
        room = most(max(len(starts) - 1, 0), len(graph[1]))
        status, used, output = self.over(graph, starts, terminals, room)
        assert output[used:] == [7] * (room + 1 - used), "numbers after the answer"
        return status, output[:used]

    def sets(self, graph, sets):
        """What each set came to: its outcome, its detail and the edges of its join."""
        terminals = [terminal for one in sets for terminal in one]
        status, numbers = self.numbers(graph, starts_of(sets), terminals)
        assert status == 0, "status %d" % status
        k = len(sets)
        starts, edges = numbers[2 * k : 3 * k + 1], numbers[3 * k + 1 :]
        assert starts[0] == 0 and starts[-1] == len(edges), "starts of joins"
        joins = [edges[starts[j] : starts[j + 1]] for j in range(k)]
        return list(zip(numbers[:k], numbers[k : 2 * k], joins))


def made_graph(chance):
    """A multigraph with loops, parallel edges, weights of either sign and vertices without edges,
    often of several components."""
    vertices, edges = chance.randint(1, 40), chance.randint(0, 80)
    near = chance.choice((2, 5, 40))
    ends = [chance.randint(1, vertices) for _ in range(edges)]
    others = [min(vertices, max(1, end + chance.randint(-near, near))) for end in ends]
    least = chance.choice((-9, 0, 0, 1))
    weights = [chance.randint(least, 9) for _ in range(edges)] if chance.random() < 0.9 else []
    return vertices, ends, others, weights


def made_set(graph, chance):
    """A set of terminals; of every other the ends of odd degree of some edges, which has a join."""
    vertices, ends, others, _ = graph
    if chance.random() < 0.5:
        return chance.sample(range(1, vertices + 1), chance.randint(0, vertices))
    odd = set()
    for u, v in zip(ends, others):
        if chance.random() < 0.3:
            odd ^= {u, v} if u != v else set()
    return chance.sample(sorted(odd), len(odd))


def alone(arrays, graph, terminals):
    """What a solve of one set comes to: an outcome, and the weight of a join."""
    values = [int(v in terminals) for v in range(1, graph[0] + 1)]
    status, numbers = arrays.answer("SOLVE_WITHOUT_PROOF", "tjoin", (*graph, [], values))
    if status == 4:
        return TOO_LARGE, 0
    return (JOINED, numbers[1]) if numbers[0] == 1 else (NO_JOIN, 0)


def odd_ends(graph, edges):
    """The vertices that so many edges meet an odd number of times."""
    odd = set()
    for edge in edges:
        odd ^= {graph[1][edge - 1]} ^ {graph[2][edge - 1]}
    return odd


def is_join(graph, terminals, edges):
    """Whether these are edges of the graph in ascending order, and a join of the terminals."""
    known = all(1 <= edge <= len(graph[1]) for edge in edges)
    return known and edges == sorted(set(edges)) and odd_ends(graph, edges) == set(terminals)


def weight_of(graph, edges):
    return sum(graph[3][edge - 1] if graph[3] else 1 for edge in edges)


def same_joins(program, library, tests):
    """Each of 2,000 sets has the outcome and the weight of a solve of its own; the edges are a join
    of this weight, and a set without one has none."""
    arrays, joins, chance, seen = Arrays(library), Joins(library), random.Random(6), set()
    for _ in range(GRAPHS):
        graph = made_graph(chance)
        sets = [made_set(graph, chance) for _ in range(SETS)]
        for terminals, (outcome, detail, edges) in zip(sets, joins.sets(graph, sets)):
            name = "joins, %r of %r" % (terminals, graph)
            wanted = alone(arrays, graph, terminals)
            tests.compare(name, b"", wanted, (outcome, detail))
            right = weight_of(graph, edges) == detail and (
                is_join(graph, terminals, edges) if outcome == JOINED else not edges
            )
            tests.compare(name + ", edges %r" % edges, b"", True, right)
            seen.add(outcome)
    tests.compare("joins, outcomes of made sets", b"", {JOINED, NO_JOIN}, seen)


#: Two components, one of them a vertex alone: 1 to 3, and 4. A loop and a parallel edge are there.
APART = (4, [1, 2, 2, 3], [2, 3, 3, 3], [2, 5, -1, -3])
#: A star of so many edges at a vertex that its certificate graph is too large.
STAR = (1501, [1] * 1500, list(range(2, 1502)), [])


def outcomes(program, library, tests):
    """Each set comes to what it would alone, whichever stand beside it: the first wrong terminal,
    then the size, then whether there is a join."""
    joins = Joins(library)
    for graph, terminals, wanted in (
        (APART, [], (JOINED, -3, [4])),
        (APART, [1, 2], (JOINED, -1, [1, 4])),
        (APART, [3, 1], (JOINED, -2, [1, 3, 4])),
        (APART, [1], (NO_JOIN, 0, [])),
        (APART, [4], (NO_JOIN, 0, [])),
        (APART, [1, 4], (NO_JOIN, 0, [])),
        (APART, [1, 2, 3, 4], (NO_JOIN, 0, [])),
        (APART, [0], (OUT_OF_RANGE, 0, [])),
        (APART, [5], (OUT_OF_RANGE, 0, [])),
        (APART, [1, 2, 2**32 - 1], (OUT_OF_RANGE, 2, [])),
        (APART, [1, 1], (REPEATED, 1, [])),
        (APART, [2, 3, 1, 3, 0], (REPEATED, 3, [])),
        (APART, [2, 3, 0, 3, 2], (OUT_OF_RANGE, 2, [])),
        (APART, [4, 0, 0], (OUT_OF_RANGE, 1, [])),
        (APART, [4, 3, 4], (REPEATED, 2, [])),
        (STAR, [], (TOO_LARGE, 0, [])),
        (STAR, [2], (TOO_LARGE, 0, [])),
        (STAR, [2, 2], (REPEATED, 1, [])),
        (STAR, [2, 1502], (OUT_OF_RANGE, 1, [])),
        ((0, [], [], []), [], (JOINED, 0, [])),
        ((0, [], [], []), [1], (OUT_OF_RANGE, 0, [])),
        ((1, [], [], []), [1], (NO_JOIN, 0, [])),
    ):
        name = "joins, the outcome of %r among %d edges" % (terminals, len(graph[1]))
        tests.compare(name, b"", [wanted], joins.sets(graph, [terminals]))
        beside = joins.sets(graph, [[0], terminals, [1, 1], terminals, []])
        tests.compare(name + ", beside others", b"", [wanted] * 2, [beside[1], beside[3]])


def at_the_limit(program, library, tests):
    """Of a graph at the limit of its size some sets are too large, as they are alone."""
    arrays, joins, edges = Arrays(library), Joins(library), 1446
    star = (edges + 1, [1] * edges, list(range(2, edges + 2)), [])
    sets = [[], [2, 3], [1, 2], [1], [1, 2, 3, 4], [2, 3, 4, 5], list(range(2, edges + 2))]
    wanted = [alone(arrays, star, terminals) for terminals in sets]
    found = [(outcome, detail) for outcome, detail, _ in joins.sets(star, sets)]
    tests.compare("joins, a star at the limit", b"", wanted, found)
    seen = {outcome for outcome, _ in found}
    tests.compare("joins, outcomes at the limit", b"", {JOINED, TOO_LARGE}, seen)


#: For each rule arrays that break it first, and where: the graph, the starts and the terminals.
FAULTS = (
    ("LENGTHS", 0, (2, [1], [], []), [0], []),
    ("LENGTHS", 0, (2, [1], [2], [1, 1]), [0], []),
    ("LENGTHS", 0, (2, [1, 3], [2, 2], [1]), [], []),
    ("VERTICES", 0, (4097, [0], [1], []), [1], []),
    ("VERTICES", 0, (2**32 - 1, [], [], []), [0], []),
    ("EDGES", 0, (2, [1] * 65537, [2] * 65537, []), [0], []),
    ("ENDPOINT", 1, (2, [0], [1], []), [0], []),
    ("ENDPOINT", 2, (2, [1, 1], [2, 3], [0, 10**13]), [], [1]),
    ("WEIGHT", 1, (2, [1, 3], [2, 2], [10**12 + 1, 0]), [0], []),
    ("WEIGHT", 2, (2, [1, 1], [2, 2], [10**12, -(2**63)]), [0, 3], [1]),
    ("STARTS", 0, APART, [], []),
    ("STARTS", 0, APART, [], [1, 2]),
    ("STARTS", 0, APART, [1], [1]),
    ("STARTS", 0, APART, [2, 1, 0], []),
    ("STARTS", 0, APART, [2**32 - 1, 0], []),
    ("STARTS", 0, APART, [0], [1]),
    ("STARTS", 1, APART, [0, 1], [1, 2]),
    ("STARTS", 1, APART, [0, 3], [1, 2]),
    ("STARTS", 1, APART, [0, 2**32 - 1], [1, 2]),
    ("STARTS", 2, APART, [0, 2, 1, 2], [1, 2]),
    ("STARTS", 2, APART, [0, 9, 2], [1, 2]),
    ("STARTS", 3, APART, [0, 1, 2, 1], [1, 2]),
    ("STARTS", 3, APART, [0, 0, 2, 3], [9, 9]),
)


def faults(program, library, tests):
    """Wrong arrays are told by their first fault, those of the graph before the starts."""
    joins, header = Joins(library), library.header
    for rule, place, graph, starts, terminals in FAULTS:
        wanted = (header.statuses["MALFORMED"], [header.input_errors[rule], place])
        name = "joins, %s at %d of %r" % (rule, place, starts)
        tests.compare(name, b"", wanted, joins.numbers(graph, starts, terminals))
    names = "JOINED NO_JOIN TERMINAL_OUT_OF_RANGE TERMINAL_REPEATED JOIN_TOO_LARGE".split()
    tests.compare(
        "joins, the numbers of outcomes",
        b"",
        {name: number for number, name in enumerate(names)},
        header.join_outcomes,
    )


def buffers(program, library, tests):
    """An answer is at the front of a buffer that it fits in, and nothing else is written; a shorter
    buffer is left as it was, and the length is told. No answer exceeds the header's size."""
    joins, short = Joins(library), library.header.statuses["BUFFER_TOO_SMALL"]
    for graph, starts, terminals in (
        (EXAMPLE, starts_of(EXAMPLE_SETS), sum(EXAMPLE_SETS, [])),
        (APART, [0], []),
        (APART, [0, 0, 0], []),
        (APART, [0, 5], [1, 2]),
        ((0, [], [], []), [0], []),
        ((2, [1, 1], [2, 2], [-1, -1]), [0, 0, 0, 0], []),
    ):
        status, numbers = joins.numbers(graph, starts, terminals)
        for room in range(len(numbers) + 3):
            wanted = (
                (short, len(numbers), [7] * (room + 1))
                if room < len(numbers)
                else (status, len(numbers), numbers + [7] * (room + 1 - len(numbers)))
            )
            got = joins.over(graph, starts, terminals, room)
            tests.compare("joins, room for %d of %d" % (room, len(numbers)), b"", wanted, got)


def many_sets(program, library, tests):
    """As many sets as a decoder has shots, of a graph with a boundary: equal sets have equal
    joins, and an answer whose joins all use every edge has a number less than suffice."""
    joins, chance = Joins(library), random.Random(8)
    graph = (50, list(range(1, 50)), list(range(2, 51)), [chance.randint(0, 9) for _ in range(49)])
    few = [chance.sample(range(1, 51), 2 * chance.randint(0, 5)) for _ in range(20)]
    found = joins.sets(graph, few * 250)
    tests.compare("joins, 5,000 sets", b"", joins.sets(graph, few) * 250, found)
    light = (*graph[:3], [-1] * 49)
    length = len(joins.numbers(light, [0, 2, 4, 6], [1, 50] * 3)[1])
    tests.compare("joins of all edges", b"", most(3, 49) - 1, length)


def equal_calls(program, library, tests):
    """Calls in several threads answer as one after another."""
    joins, chance = Joins(library), random.Random(9)
    rows = []
    for _ in range(40):
        graph = made_graph(chance)
        rows.append((graph, [made_set(graph, chance) for _ in range(8)]))
    first = [joins.sets(*row) for row in rows]
    with concurrent.futures.ThreadPoolExecutor(2) as executor:
        at_once = list(executor.map(lambda row: joins.sets(*row), rows * 2))
    tests.compare("joins, equal calls", b"", first * 2, at_once)


def little_memory(program, library, tests):
    """Without memory for a call its status says so, and the buffer is as it was."""
    done = subprocess.run(
        [sys.executable, os.path.abspath(__file__), "--little-memory"],
        capture_output=True,
        text=True,
        timeout=60,
    )
    wanted = "%d 0 True\n" % library.header.statuses["OUT_OF_MEMORY"]
    tests.compare("joins with little memory", b"", (wanted, ""), (done.stdout, done.stderr))


def print_with_little_memory():
    """Prints what a call comes to that has no memory: the status, the length, and whether the
    buffer is as it was."""
    joins, edges = Joins(Library()), 65536
    call = joins.prepared((2, [1] * edges, [2] * edges, [1] * edges), [0, 0], [], 20)
    joins.over(EXAMPLE, [0, 2], [1, 4], 20)
    with open("/proc/self/statm", encoding="ascii") as file:
        size = int(file.read().split()[0]) * resource.getpagesize() + (1 << 20)
    resource.setrlimit(resource.RLIMIT_AS, (size, size))
    status, used, output = call()
    print(status, used, output == [7] * 21)


def memory(program, library, tests):
    """Ten thousand calls, some of them refused, leave the process as large as it was."""
    from c_library import resident

    joins = Joins(library)
    rows = (
        (EXAMPLE, starts_of(EXAMPLE_SETS), sum(EXAMPLE_SETS, []), 60),
        (EXAMPLE, starts_of(EXAMPLE_SETS), sum(EXAMPLE_SETS, []), 9),
        (APART, [0, 2, 5], [1, 2, 3, 4, 0], 20),
        (APART, [0, 2, 1], [1, 2, 3, 4, 0], 20),
        ((2, [3], [1], []), [0, 1], [1], 20),
    )
    for row in rows * 500:
        joins.over(*row)
    before = resident()
    for row in rows * 2_000:
        joins.over(*row)
    grown = (resident() - before) * resource.getpagesize()
    name = "joins, memory after 10,000 calls (%d bytes more)" % grown
    tests.compare(name, b"", True, grown < 1 << 20)


def structs(program, library, tests):
    """The fields of the structs are the numbers of the call, at each status."""
    text = ran(tests, "joins by structs", c_compilers.C, "joins.c", "libblossom.so")
    header = library.header
    statuses, rules = header.statuses, header.input_errors
    nothing = "0 sets, rule %d %d, nothing\n"
    wanted = "status 0, 4 sets, 16 numbers\n0 -3: 4\n0 -1: 1 4\n3 1:\n1 0:\n"
    wanted += "status 0, 0 sets, 1 numbers\n"
    for status, length, told in (
        (statuses["MALFORMED"], 2, (rules["STARTS"], 0)),
        (statuses["MALFORMED"], 2, (rules["STARTS"], 2)),
        (statuses["MALFORMED"], 2, (rules["STARTS"], 4)),
        (statuses["MALFORMED"], 2, (rules["ENDPOINT"], 1)),
        (statuses["BUFFER_TOO_SMALL"], 16, (0, 0)),
        (statuses["BUFFER_TOO_SMALL"], 16, (0, 0)),
        (statuses["INVALID_ARGUMENT"], 0, (0, 0)),
        (statuses["INVALID_ARGUMENT"], 0, (0, 0)),
    ):
        wanted += "status %d, %d numbers, " % (status, length) + nothing % told
    wanted += "%d %d %d\n" % (most(0, 0), most(1, 7), most(3, 65536))
    tests.compare("joins by structs", b"", wanted, text)


def c_plus_plus(program, library, tests):
    """The header for C++ tells what the call does, by each standard."""
    wanted = "0 -3 0: 4\n0 -1 0: 1 4\n3 0 1:\n1 0 0:\n0 sets\n"
    wanted += (
        "%d 2 blossom: malformed arrays: the starts of terminal sets do not ascend from 0 to the"
        " end (rule %d) at index 2\n" % ((library.header.input_errors["STARTS"],) * 2)
    )
    wanted += "blossom: joins take a graph of kind tjoin without values\n" * 2
    for size in (0, 2, 4, 4, 5, 6):
        wanted += "blossom: these %d numbers do not have the layout of joins\n" % size
    wanted += "65 sets, 266240 edges\n"
    for standard in STANDARDS:
        what = "joins in C++, " + standard
        of = c_compilers.C_PLUS_PLUS
        text = ran(tests, what, of, "joins.cpp", "libblossom.so", [standard])
        tests.compare(what, b"", wanted, text)


def example(program, library, tests):
    """The example compiles with each library without a warning and runs; so it does with sanitizers
    on the caller's side."""
    source = os.path.join(os.path.abspath(CAPI), "example_joins.c")
    sanitized = c_compilers.SANITIZED
    for name, more in (("libblossom.so", []), ("libblossom.a", []), ("libblossom.so", sanitized)):
        what = "the example of joins%s with %s" % (", sanitized," if more else "", name)
        text = ran(tests, what, c_compilers.C, source, name, more)
        tests.compare(what, b"", PRINTED, text)
    found = Joins(library).sets(EXAMPLE, EXAMPLE_SETS)
    told = [(0, 2, [3, 6]), (0, 0, []), (0, 8, [2, 7]), (1, 0, []), (2, 1, [])]
    tests.compare("the sets of the example of joins", b"", told, found)


PARTS = (
    same_joins,
    outcomes,
    at_the_limit,
    faults,
    buffers,
    many_sets,
    equal_calls,
    little_memory,
    memory,
    structs,
    c_plus_plus,
    example,
)

if __name__ == "__main__" and sys.argv[1:] == ["--little-memory"]:
    print_with_little_memory()
