#!/usr/bin/env python3
"""Processor times of calls of the Python package beside those of the program itself, as
docs/PERFORMANCE.md has them.

Usage: python_calls.py [ROUNDS], with the program's path in the environment variable BLOSSOM where
it isn't built in this checkout, and that of the library in BLOSSOM_LIBRARY. Prints a row for each
call: the least time of so many rounds (5 without a number; 200 times as many of a shot), and how
much of it the program took, or the call of the library. Forms and pictures that want what isn't
installed are left out, and so are rows of the library where there is none. It ends with what has a
bound, and fails where one is passed: columns of numpy by the library, whose answer is the places of
the edges, and the check of that answer, beside the calls for C; a tour of streets beside the
program; a graph of networkx; and a decoder's shots by the library, one by one and in batches,
beside the call for C."""
import ctypes
import importlib
import io
import os
import random
import resource
import sys
import time

TOP = os.path.dirname(os.path.dirname(os.path.abspath(__file__)))
# In place of this folder, whose queue.py is none of Python's.
sys.path[0] = os.path.join(TOP, "python")

import blossom  # noqa: E402
import blossom.library  # noqa: E402
from blossom.array_library import most_of_joins  # noqa: E402
from blossom.buffers import address  # noqa: E402
from blossom.decoding_batch import sets_of  # noqa: E402
from blossom.prepared import graph_words  # noqa: E402

ROUNDS = int(sys.argv[1]) if len(sys.argv) > 1 else 5
# How many times as long as the call for C a call of columns of numpy may take, and its check.
MOST = 1.3
# How many times as long as the program Python may take for a tour of streets, and how many
# milliseconds for a graph of networkx.
MOST_TOUR, MOST_NETWORKX = 3, 100
# How many microseconds a shot may take beside the call for C on codes of up to how many rows: of 8
# detectors as a set, and any; and how many rounds it has for each other.
MOST_USUAL, MOST_BESIDE, BOUND_SIZE, SHOT_ROUNDS = 15, 50, 15, 200
# How many microseconds a shot of a batch may take beside the call for C on such a code as a row of
# an array of numpy, and how many shots a batch has.
MOST_BATCHED, BATCH = 10, 200
# What has a bound: in words, and whether it is passed.
bounded = []


def bound(told, value, most):
    """Notes a value that is to be at most so much. told: what it is, with a place for it."""
    bounded.append(("%s (at most %g)" % (told % value, most), value > most))


def children():
    """The processor seconds of the processes that were started and have ended."""
    used = resource.getrusage(resource.RUSAGE_CHILDREN)
    return used.ru_utime + used.ru_stime


class Timed:
    """What runs the program, and notes what that takes: of a process its own time, of the library
    that of the call."""

    def __init__(self, by):
        self.by, self.seconds = by, 0.0

    def run(self, *words, **how):
        process = isinstance(self.by, blossom.Process)
        clock = children if process else time.process_time
        start = clock()
        try:
            return self.by.run(*words, **how)
        finally:
            self.seconds += clock() - start


class TimedCall:
    """A function of the library, and how long its calls took."""

    def __init__(self, function):
        self.function, self.seconds = function, 0.0

    def __call__(self, *words):
        start = time.process_time()
        try:
            return self.function(*words)
        finally:
            self.seconds += time.process_time() - start


def timed_function(name):
    """The function of the library of this name, from now on timed."""
    library = blossom.library.found(None, os.environ.get("BLOSSOM_LIBRARY"))
    setattr(library, name, TimedCall(getattr(library, name)))
    return getattr(library, name)


def least(call, by):
    """The least time of a call in all rounds, and how much of it the program took."""
    found = []
    for _ in range(ROUNDS):
        by.seconds, start = 0.0, time.process_time() + children()
        call()
        found.append((time.process_time() + children() - start, by.seconds))
    return min(found)


def words(seconds):
    """A time in words."""
    return "%.0f ms" % (1e3 * seconds) if seconds >= 0.01 else "%.0f us" % (1e6 * seconds)


def show(name, whole, program):
    """Prints a row."""
    times = words(whole), words(program), words(whole - program)
    print("| %s | %s | %s | %s |" % (name, *times), flush=True)


def row(name, call, by, calls=1):
    """Prints the row of a call that does so many. The times of the whole and of the program."""
    whole, program = least(call, by)
    show(name, whole / calls, program / calls)
    return whole, program


def installed(name):
    try:
        return importlib.import_module(name)
    except ImportError:
        return None


def edges(nodes=2000, count=60000):
    """So many edges by chance, no two of the same nodes, with a ring among them."""
    chance = random.Random(1)
    pairs = {(node, (node + 1) % nodes) for node in range(nodes)}
    while len(pairs) < count:
        first, second = chance.sample(range(nodes), 2)
        if (second, first) not in pairs:
            pairs.add((first, second))
    return [(*pair, chance.randrange(10**6)) for pair in sorted(pairs)]


def large(by, engine, how=""):
    """A perfect matching of least weight on 60,000 edges, in each form. The times of each row."""
    rows = edges()
    first, second, weight = (list(column) for column in zip(*rows))
    columns = {"u": first, "v": second, "weight": weight}
    forms = [("60,000 edges as tuples", rows), ("as columns of lists", columns),
             ("with names of streets", [("street %d" % u, "street %d" % v, w) for u, v, w in rows])]
    numpy, pandas, networkx = map(installed, ("numpy", "pandas", "networkx"))
    if numpy:
        forms.append(("as numpy arrays", tuple(map(numpy.array, (first, second, weight)))))
    if pandas:
        forms.append(("as a DataFrame", pandas.DataFrame(columns)))
    if networkx:
        graph = networkx.Graph()
        graph.add_weighted_edges_from(rows)
        forms.append(("as a graph of networkx", graph))
    taken = {}
    for name, form in forms:
        taken[name] = row(name + how, lambda form=form: matching(form, engine).edges, by)
        if "numpy" in name or "DataFrame" in name:
            name += PLACES
            taken[name] = row(name + how, lambda form=form: matching(form, engine).edge_indices, by)
    return taken


PLACES = ", places of edges"


def matching(form, engine):
    """The matching of a graph in some form."""
    return blossom.min_weight_perfect_matching(form, engine=engine)


def large_by_the_library():
    """The same by the library, and the check of the answer, with their bounds."""
    timed, check = timed_function("blossom_solve_arrays"), timed_function("blossom_check_arrays")
    taken = large(timed, blossom.Library(), ", by the library")
    columns = [whole / program for name, (whole, program) in taken.items() if PLACES in name]
    bound("columns of numpy by the library take %.2f times the call for C",
          max(columns, default=0.0), MOST)
    answer = matching(edges(), blossom.Library())
    whole, program = row("the check of its answer, by the library", answer.check, check)
    bound("the check of an answer takes %.2f times the call for C", whole / program, MOST)
    for whole, program in (taken[name] for name in taken if "networkx" in name):
        bound("a graph of networkx takes %%.0f ms of Python, %.1f times the call for C"
              % ((whole - program) / program), 1e3 * (whole - program), MOST_NETWORKX)
    return timed


def code(size, engine):
    """The decoder of a code of so many rows and columns, whose boundary is at one side, where an
    observable is flipped."""
    lines = [(here, here + 1) for here in range(size * size) if here % size < size - 1]
    lines += [(here, here + size) for here in range(size * (size - 1))]
    lines += [(here * size, None) for here in range(size)]
    return blossom.Decoder.from_edges([(*line, 1, 0 if line[1] is None else None)
                                       for line in lines], engine=engine)


def small(by, engine, name, joins):
    """Graphs of two edges, and shots of a code of 15 rows and columns. joins: what is timed of
    these."""
    graphs = [[("a", "b", weight), ("b", "c", 3)] for weight in range(200)]
    row("a graph of two edges, %s" % name, lambda:
        [blossom.max_weight_matching(graph, engine=engine).edges for graph in graphs], by, len(graphs))
    decoder, chance = code(15, engine), random.Random(2)
    shots = [set(chance.sample(range(15 * 15), 8)) for _ in range(50)]
    decoder.decode(shots[0])
    row("a shot of a code, %s" % name, lambda: [decoder.decode(shot) for shot in shots], joins,
        len(shots))


def call_of(decoder, shots):
    """The call for C that shots come to, as one that takes nothing."""
    function = blossom.library.found(None, os.environ.get("BLOSSOM_LIBRARY")).blossom_join_arrays
    sets, = sets_of(decoder._planned(), shots)
    numbers = sets.part.base._numbers
    room = (ctypes.c_int64 * most_of_joins(len(shots), len(numbers.first)))()
    used = ctypes.c_size_t()
    given = (*graph_words(numbers), *address(sets.starts), *address(sets.terminals),
             ctypes.addressof(room), len(room), ctypes.byref(used))

    def call():
        function(*given)
        return sets, room  # (what stands at the addresses)

    return call


def beside(name, decode, call, rounds=SHOT_ROUNDS, shots=1):
    """Prints the row of a shot: the least time of many calls for so many shots, and of as many
    calls for C between them. What the first takes beside the second."""
    wholes, alone = [], []
    for _ in range(rounds * ROUNDS):
        start = time.process_time()
        decode()
        between = time.process_time()
        call()
        wholes.append((between - start) / shots)
        alone.append((time.process_time() - between) / shots)
    show(name, min(wholes), min(alone))
    return min(wholes) - min(alone)


def shots():
    """Single shots by the library on three codes, with their bounds."""
    numpy, chance, found = installed("numpy"), random.Random(3), []
    for size in (7, 15, 22):
        decoder = code(size, blossom.Library())
        for fired in (2, 8, 24):
            shot = set(chance.sample(range(size * size), fired))
            forms = [("as a set", shot), ("as a list", [int(node in shot) for node
                                                       in range(size * size)])]
            if numpy:
                forms.append(("as a numpy array", numpy.array(forms[1][1], "uint8")))
            for form, given in forms:
                name = "a shot of %d edges, %d detectors %s" % (decoder.num_edges, fired, form)
                more = beside(name, lambda given=given: decoder.decode(given),
                              call_of(decoder, [shot]))
                found.append((size, fired, form, 1e6 * more))
    usual = [more for *which, more in found if which == [BOUND_SIZE, 8, "as a set"]]
    bound("a shot of 8 detectors by the library takes %.1f us beside the call for C", usual[0],
          MOST_USUAL)
    bound("any shot of as large a code takes %.1f us",
          max(more for size, _, _, more in found if size <= BOUND_SIZE), MOST_BESIDE)


def batches():
    """Batches of shots by the library on these codes, with the bound of a row of an array. They
    take one processor, since threads that share one core make the library's own calls slower."""
    numpy, chance, found = installed("numpy"), random.Random(4), {}
    allowed = os.sched_getaffinity(0)
    os.sched_setaffinity(0, {min(allowed)})
    for size in (7, 15, 22):
        decoder = code(size, blossom.Library())
        sets = [set(chance.sample(range(size * size), 8)) for _ in range(BATCH)]
        rows = [[int(node in shot) for node in range(size * size)] for shot in sets]
        forms = [("sets", sets), ("lists", rows)]
        if numpy:
            forms.append(("an array", numpy.array(rows, "uint8")))
        for form, given in forms:
            name = "each of %d shots of %d edges, 8 detectors, as %s" % (
                BATCH, decoder.num_edges, form)
            more = beside(name, lambda given=given: decoder.decode_batch(given),
                          call_of(decoder, sets), SHOT_ROUNDS // BATCH + 1, BATCH)
            found[size, form] = 1e6 * more
    os.sched_setaffinity(0, allowed)
    if numpy:
        bound("a shot of a batch as an array takes %.1f us beside the call for C",
              found[BOUND_SIZE, "an array"], MOST_BATCHED)


def town():
    """A tour of 1,512 streets, and its picture."""
    places = {(x, y): (x, y) for x in range(28) for y in range(28)}
    streets = [(here, there, 1 + (here[0] * 7 + here[1] * 5) % 9) for here in places
               for there in ((here[0] + 1, here[1]), (here[0], here[1] + 1)) if there in places]
    by = Timed(blossom.Process())
    whole, program = row("a tour of 1,512 streets", lambda:
                         blossom.chinese_postman(streets, engine=by).rows, by)
    bound("a tour of 1,512 streets takes Python %.1f times the program",
          (whole - program) / program, MOST_TOUR)
    answer = blossom.chinese_postman(streets)
    row("its picture as SVG", lambda: answer.draw(places).svg(), Timed(None))
    row("without positions", lambda: answer.draw().svg(), Timed(None))
    if installed("matplotlib"):
        row("as PNG", lambda: answer.draw(places).save(io.BytesIO(), "png"), Timed(None))


def main():
    print("| Call | Whole | The program | Python |\n|---|---|---|---|")
    process = Timed(blossom.Process())
    large(process, process)
    small(process, process, "as a process", process)
    try:
        blossom.library.find_library()
    except blossom.SolverError:
        print("there is no library (capi/build.sh)", file=sys.stderr)
    else:
        by_the_library()
    town()
    print("\n".join(told for told, _ in bounded), file=sys.stderr)
    sys.exit(int(any(is_passed for _, is_passed in bounded)))


def by_the_library():
    """The rows of the library."""
    shots()
    batches()
    timed = large_by_the_library()
    small(timed, blossom.Library(), "by the library", timed_function("blossom_join_arrays"))
    graphs = [[("a", "b", weight), ("b", "c", 3)] for weight in range(10000)]
    row("each of 10,000 such graphs, `solve_many`", lambda:
        blossom.solve_many("match", graphs, engine="library"), Timed(None), len(graphs))


if __name__ == "__main__":
    main()
