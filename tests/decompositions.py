"""The sets of Gallai and Edmonds against all greatest matchings: every graph of up to six vertices,
and multigraphs with loops made at random, through the library for C over arrays.

A vertex is missed by some greatest matching where the graph without it has one as large, which
is found here by trying all subsets of the vertices. `check` has to accept each answer, and each
path is walked here too."""
import itertools
import multiprocessing
import random

import c_parts

MADE, CHUNK = 20_000, 1_000
MOST_OF_ALL, MOST_OF_MADE = 6, 9


def largest_matchings(n, edges):
    """For each set of vertices, as bits, how many edges a greatest matching within it has."""
    near = [0] * n
    for u, v in edges:
        if u != v:
            near[u - 1] |= 1 << (v - 1)
            near[v - 1] |= 1 << (u - 1)
    most = [0] * (1 << n)
    for held in range(1, 1 << n):
        low = (held & -held).bit_length() - 1
        rest = held & (held - 1)
        best, others = most[rest], near[low] & rest
        while others:
            other = others & -others
            others ^= other
            best = max(best, 1 + most[rest ^ other])
        most[held] = best
    return most


def sets_of(n, edges):
    """How many edges a greatest matching has, the vertices that some such one misses, and their
    neighbours."""
    most, whole = largest_matchings(n, edges), (1 << n) - 1
    outer = [v for v in range(1, n + 1) if most[whole ^ 1 << (v - 1)] == most[whole]]
    border = {t for u, v in edges for s, t in ((u, v), (v, u)) if s in outer and t not in outer}
    return most[whole], outer, sorted(border)


def is_even_path(edges, counts, start, path):
    """Whether it comes to no vertex twice, is in the matching and outside it in turn, and ends
    at a vertex that this misses."""
    here, met = start, {start}
    for place, number in enumerate(path):
        u, v = edges[number - 1]
        if here not in (u, v) or counts[number - 1] != 1 - place % 2:
            return False
        here = v if here == u else u
        if here in met:
            return False
        met.add(here)
    missed = not any(count and here in ends for count, ends in zip(counts, edges))
    return len(path) % 2 == 0 and missed


def fault(arrays, n, edges):
    """What is wrong with the library's answer, or None."""
    given = (n, [u for u, _ in edges], [v for _, v in edges], [], [], [])
    status, numbers = arrays.answer("SOLVE", "gallai", given)
    if status != 0:
        return "status %d" % status
    _, weight, _, a, p, k, t, b = numbers[:8]
    counts, starts = numbers[8 : 8 + a], numbers[8 + a + p : 8 + a + p + k]
    offsets = numbers[8 + a + p + k : 9 + a + p + 2 * k]
    members, border = (
        numbers[9 + a + p + 2 * k : 9 + a + p + 2 * k + t],
        numbers[9 + a + p + 2 * k + t :],
    )
    if (weight, starts, border) != sets_of(n, edges) or len(border) != b or sum(counts) != weight:
        return "the sets or the size differ: %r" % (numbers,)
    paths = [members[first:last] for first, last in zip(offsets, offsets[1:])]
    if not all(is_even_path(edges, counts, start, path) for start, path in zip(starts, paths)):
        return "a path isn't one: %r" % (numbers,)
    verdict = arrays.check("gallai", given, numbers)
    return None if verdict == (0, []) else "the checker says %r" % (verdict,)


def all_graphs():
    """Every graph of up to six vertices, as the number of these and the bits of its edges."""
    for n in range(MOST_OF_ALL + 1):
        pairs = n * (n - 1) // 2
        for first in range(0, 1 << pairs, CHUNK):
            yield "all", n, first, min(CHUNK, (1 << pairs) - first)


def graphs(job):
    """The graphs of a job."""
    which, n, first, count = job
    if which == "all":
        pairs = list(itertools.combinations(range(1, n + 1), 2))
        for bits in range(first, first + count):
            yield n, [pair for place, pair in enumerate(pairs) if bits >> place & 1]
        return
    chance = random.Random(first)
    for _ in range(count):
        size = chance.randint(1, n)
        yield size, [
            (chance.randint(1, size), chance.randint(1, size))
            for _ in range(chance.randint(0, 2 * size))
        ]


def chunk(job):
    """How many graphs a job had, and the faults."""
    from c_arrays import Arrays
    from c_parts import Library

    arrays, faults, tried = Arrays(Library()), [], 0
    for n, edges in graphs(job):
        wrong, tried = fault(arrays, n, edges), tried + 1
        if wrong is not None:
            faults.append(
                "FAILED gallai over arrays: %d vertices, edges %r: %s" % (n, edges, wrong)
            )
    return tried, faults


def check(tests):
    """All of these graphs, where the library is built."""
    if not c_parts.is_built():
        tests.skip("decompositions", "capi/out isn't of the present sources (capi/build.sh)")
        return
    jobs = [
        *all_graphs(),
        *(("made", MOST_OF_MADE, start, CHUNK) for start in range(0, MADE, CHUNK)),
    ]
    with multiprocessing.Pool() as pool:
        for tried, faults in pool.imap_unordered(chunk, jobs):
            tests.passed, tests.failed = tests.passed + tried - len(faults), tests.failed + len(
                faults
            )
            for text in faults:
                print(text, flush=True)
